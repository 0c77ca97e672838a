//! A visitor that writes down each call.
ghost use Rattle.std.specs.Prelude.{⊤};

use der_parser::ber::{ASN1DateTime, Any, BerObject, BitStringObject, Class, Tag, Visit, VisitMut};
use der_parser::oid::Oid;
use std::alloc::{AllocError, Global};
use test_tables::fault::Fault;
use test_tables::octets::push_word;

/// The functions that were called, each with its depth, and whether there was memory for all.
#[derive(Drop)]
pub struct Watcher {
    calls: String,
    is_whole: bool,
}

impl Watcher {
    pub fn new(alloc: Global) -> Watcher {
        Watcher {
            calls: String::new(alloc),
            is_whole: true,
        }
    }

    /// A call of the function whose name ends so: `any` is `visit_ber`, and `null` is
    /// `visit_ber_null` or `visit_ber_null_mut`.
    fn meet(&mut self, function: &str, depth: usize) {
        if push_call(&mut self.calls, function, depth).is_err() {
            self.is_whole = false;
        }
    }

    /// The calls that were met.
    pub fn calls(self) -> Result<String, Fault> {
        if self.is_whole {
            Ok(self.calls)
        } else {
            Err(Fault::OutOfMemory)
        }
    }
}

fn push_call(calls: &mut String, function: &str, depth: usize) -> Result<(), AllocError> {
    push_word(calls, function)?;
    write!(calls, " {depth}")
}

impl Visit for Watcher {
    ghost object_step = { λ _ _ _ _. ⊤ };

    ghost content_step = { λ _ _ _ _. ⊤ };

    fn visit_ber<'t>(&mut self, _object: &BerObject<'t>, depth: usize) {
        self.meet("any", depth);
    }

    fn visit_ber_endofcontent(&mut self, depth: usize) {
        self.meet("endofcontent", depth);
    }

    fn visit_ber_boolean(&mut self, _value: bool, depth: usize) {
        self.meet("boolean", depth);
    }

    fn visit_ber_integer<'t>(&mut self, _octets: &'t [u8], depth: usize) {
        self.meet("integer", depth);
    }

    fn visit_ber_bitstring<'t>(&mut self, _unused: u8, _bits: &BitStringObject<'t>, depth: usize) {
        self.meet("bitstring", depth);
    }

    fn visit_ber_octetstring<'t>(&mut self, _octets: &'t [u8], depth: usize) {
        self.meet("octetstring", depth);
    }

    fn visit_ber_null(&mut self, depth: usize) {
        self.meet("null", depth);
    }

    fn visit_ber_enum(&mut self, _number: u64, depth: usize) {
        self.meet("enum", depth);
    }

    fn visit_ber_oid<'t>(&mut self, _oid: &Oid<'t>, depth: usize) {
        self.meet("oid", depth);
    }

    fn visit_ber_relative_oid<'t>(&mut self, _oid: &Oid<'t>, depth: usize) {
        self.meet("relative_oid", depth);
    }

    fn visit_ber_numericstring<'t>(&mut self, _text: &'t str, depth: usize) {
        self.meet("numericstring", depth);
    }

    fn visit_ber_visiblestring<'t>(&mut self, _text: &'t str, depth: usize) {
        self.meet("visiblestring", depth);
    }

    fn visit_ber_printablestring<'t>(&mut self, _text: &'t str, depth: usize) {
        self.meet("printablestring", depth);
    }

    fn visit_ber_ia5string<'t>(&mut self, _text: &'t str, depth: usize) {
        self.meet("ia5string", depth);
    }

    fn visit_ber_utf8string<'t>(&mut self, _text: &'t str, depth: usize) {
        self.meet("utf8string", depth);
    }

    fn visit_ber_teletexstring<'t>(&mut self, _text: &'t str, depth: usize) {
        self.meet("teletexstring", depth);
    }

    fn visit_ber_videotextstring<'t>(&mut self, _text: &'t str, depth: usize) {
        self.meet("videotextstring", depth);
    }

    fn visit_ber_objectdescriptor<'t>(&mut self, _text: &'t str, depth: usize) {
        self.meet("objectdescriptor", depth);
    }

    fn visit_ber_graphicstring<'t>(&mut self, _text: &'t str, depth: usize) {
        self.meet("graphicstring", depth);
    }

    fn visit_ber_generalstring<'t>(&mut self, _text: &'t str, depth: usize) {
        self.meet("generalstring", depth);
    }

    fn visit_ber_bmpstring<'t>(&mut self, _octets: &'t [u8], depth: usize) {
        self.meet("bmpstring", depth);
    }

    fn visit_ber_universalstring<'t>(&mut self, _octets: &'t [u8], depth: usize) {
        self.meet("universalstring", depth);
    }

    fn visit_ber_sequence<'t>(&mut self, _items: &[BerObject<'t>], depth: usize) {
        self.meet("sequence", depth);
    }

    fn visit_ber_set<'t>(&mut self, _items: &[BerObject<'t>], depth: usize) {
        self.meet("set", depth);
    }

    fn visit_ber_utctime(&mut self, _time: &ASN1DateTime, depth: usize) {
        self.meet("utctime", depth);
    }

    fn visit_ber_generalizedtime(&mut self, _time: &ASN1DateTime, depth: usize) {
        self.meet("generalizedtime", depth);
    }

    fn visit_ber_optional<'t>(&mut self, _object: Option<&BerObject<'t>>, depth: usize) {
        self.meet("optional", depth);
    }

    fn visit_ber_tagged<'t>(
        &mut self,
        _class: Class,
        _tag: Tag,
        _object: &BerObject<'t>,
        depth: usize,
    ) {
        self.meet("tagged", depth);
    }

    fn visit_ber_unknown<'t>(&mut self, _any: &Any<'t>, depth: usize) {
        self.meet("unknown", depth);
    }
}

impl VisitMut for Watcher {
    ghost object_step = { λ _ _ _ _ _. ⊤ };

    ghost content_step = { λ _ _ _ _ _. ⊤ };

    fn visit_ber_mut<'t>(&mut self, _object: &mut BerObject<'t>, depth: usize) {
        self.meet("any", depth);
    }

    fn visit_ber_endofcontent_mut(&mut self, depth: usize) {
        self.meet("endofcontent", depth);
    }

    fn visit_ber_boolean_mut(&mut self, _value: &mut bool, depth: usize) {
        self.meet("boolean", depth);
    }

    fn visit_ber_integer_mut<'t>(&mut self, _octets: &mut &'t [u8], depth: usize) {
        self.meet("integer", depth);
    }

    fn visit_ber_bitstring_mut<'t>(
        &mut self,
        _unused: &mut u8,
        _bits: &mut BitStringObject<'t>,
        depth: usize,
    ) {
        self.meet("bitstring", depth);
    }

    fn visit_ber_octetstring_mut<'t>(&mut self, _octets: &'t [u8], depth: usize) {
        self.meet("octetstring", depth);
    }

    fn visit_ber_null_mut(&mut self, depth: usize) {
        self.meet("null", depth);
    }

    fn visit_ber_enum_mut(&mut self, _number: &mut u64, depth: usize) {
        self.meet("enum", depth);
    }

    fn visit_ber_oid_mut<'t>(&mut self, _oid: &mut Oid<'t>, depth: usize) {
        self.meet("oid", depth);
    }

    fn visit_ber_relative_oid_mut<'t>(&mut self, _oid: &mut Oid<'t>, depth: usize) {
        self.meet("relative_oid", depth);
    }

    fn visit_ber_numericstring_mut<'t>(&mut self, _text: &mut &'t str, depth: usize) {
        self.meet("numericstring", depth);
    }

    fn visit_ber_visiblestring_mut<'t>(&mut self, _text: &mut &'t str, depth: usize) {
        self.meet("visiblestring", depth);
    }

    fn visit_ber_printablestring_mut<'t>(&mut self, _text: &mut &'t str, depth: usize) {
        self.meet("printablestring", depth);
    }

    fn visit_ber_ia5string_mut<'t>(&mut self, _text: &mut &'t str, depth: usize) {
        self.meet("ia5string", depth);
    }

    fn visit_ber_utf8string_mut<'t>(&mut self, _text: &'t str, depth: usize) {
        self.meet("utf8string", depth);
    }

    fn visit_ber_teletexstring_mut<'t>(&mut self, _text: &mut &'t str, depth: usize) {
        self.meet("teletexstring", depth);
    }

    fn visit_ber_videotextstring_mut<'t>(&mut self, _text: &mut &'t str, depth: usize) {
        self.meet("videotextstring", depth);
    }

    fn visit_ber_objectdescriptor_mut<'t>(&mut self, _text: &mut &'t str, depth: usize) {
        self.meet("objectdescriptor", depth);
    }

    fn visit_ber_graphicstring_mut<'t>(&mut self, _text: &mut &'t str, depth: usize) {
        self.meet("graphicstring", depth);
    }

    fn visit_ber_generalstring_mut<'t>(&mut self, _text: &mut &'t str, depth: usize) {
        self.meet("generalstring", depth);
    }

    fn visit_ber_bmpstring_mut<'t>(&mut self, _octets: &mut &'t [u8], depth: usize) {
        self.meet("bmpstring", depth);
    }

    fn visit_ber_universalstring_mut<'t>(&mut self, _octets: &mut &'t [u8], depth: usize) {
        self.meet("universalstring", depth);
    }

    fn visit_ber_sequence_mut<'t>(&mut self, _items: &mut Vec<BerObject<'t>>, depth: usize) {
        self.meet("sequence", depth);
    }

    fn visit_ber_set_mut<'t>(&mut self, _items: &mut Vec<BerObject<'t>>, depth: usize) {
        self.meet("set", depth);
    }

    fn visit_ber_utctime_mut(&mut self, _time: &ASN1DateTime, depth: usize) {
        self.meet("utctime", depth);
    }

    fn visit_ber_generalizedtime_mut(&mut self, _time: &ASN1DateTime, depth: usize) {
        self.meet("generalizedtime", depth);
    }

    fn visit_ber_optional_mut<'t>(
        &mut self,
        _object: &mut Option<Box<BerObject<'t>>>,
        depth: usize,
    ) {
        self.meet("optional", depth);
    }

    fn visit_ber_tagged_mut<'t>(
        &mut self,
        _class: &mut Class,
        _tag: &mut Tag,
        _object: &mut BerObject<'t>,
        depth: usize,
    ) {
        self.meet("tagged", depth);
    }

    fn visit_ber_unknown_mut<'t>(&mut self, _any: &mut Any<'t>, depth: usize) {
        self.meet("unknown", depth);
    }
}
