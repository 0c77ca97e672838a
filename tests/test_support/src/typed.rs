//! The readers of one type, by the number of the type.
use der_parser::ber::{
    parse_ber_bitstring, parse_ber_bmpstring, parse_ber_bool, parse_ber_endofcontent,
    parse_ber_enum, parse_ber_generalizedtime, parse_ber_generalstring, parse_ber_graphicstring,
    parse_ber_ia5string, parse_ber_integer, parse_ber_null, parse_ber_numericstring,
    parse_ber_objectdescriptor, parse_ber_octetstring, parse_ber_oid, parse_ber_printablestring,
    parse_ber_relative_oid, parse_ber_sequence, parse_ber_set, parse_ber_t61string,
    parse_ber_universalstring, parse_ber_utctime, parse_ber_utf8string, parse_ber_videotexstring,
    parse_ber_visiblestring,
};
use der_parser::der::{
    parse_der_bitstring, parse_der_bmpstring, parse_der_bool, parse_der_endofcontent,
    parse_der_enum, parse_der_generalizedtime, parse_der_generalstring, parse_der_graphicstring,
    parse_der_ia5string, parse_der_integer, parse_der_null, parse_der_numericstring,
    parse_der_objectdescriptor, parse_der_octetstring, parse_der_oid, parse_der_printablestring,
    parse_der_relative_oid, parse_der_sequence, parse_der_set, parse_der_t61string,
    parse_der_universalstring, parse_der_utctime, parse_der_utf8string, parse_der_videotexstring,
    parse_der_visiblestring,
};
use der_parser::error::BerResult;
use der_parser::{parse_ber, parse_der};
use std::alloc::Global;

/// What the reader of the type of this number answers by BER; where no type has it, the full reader.
pub fn read_type_by_ber<'a>(alloc: Global, number: u32, input: &'a [u8]) -> BerResult<'a> {
    match number {
        0 => parse_ber_endofcontent(input),
        1 => parse_ber_bool(input),
        2 => parse_ber_integer(input),
        3 => parse_ber_bitstring(input),
        4 => parse_ber_octetstring(input),
        5 => parse_ber_null(input),
        6 => parse_ber_oid(input),
        7 => parse_ber_objectdescriptor(input),
        10 => parse_ber_enum(input),
        12 => parse_ber_utf8string(input),
        13 => parse_ber_relative_oid(input),
        16 => parse_ber_sequence(alloc, input),
        17 => parse_ber_set(alloc, input),
        18 => parse_ber_numericstring(input),
        19 => parse_ber_printablestring(input),
        20 => parse_ber_t61string(input),
        21 => parse_ber_videotexstring(input),
        22 => parse_ber_ia5string(input),
        23 => parse_ber_utctime(input),
        24 => parse_ber_generalizedtime(input),
        25 => parse_ber_graphicstring(input),
        26 => parse_ber_visiblestring(input),
        27 => parse_ber_generalstring(input),
        28 => parse_ber_universalstring(input),
        30 => parse_ber_bmpstring(input),
        _ => parse_ber(alloc, input),
    }
}

/// What the reader of the type of this number answers by DER; where no type has it, the full reader.
pub fn read_type_by_der<'a>(alloc: Global, number: u32, input: &'a [u8]) -> BerResult<'a> {
    match number {
        0 => parse_der_endofcontent(input),
        1 => parse_der_bool(input),
        2 => parse_der_integer(input),
        3 => parse_der_bitstring(input),
        4 => parse_der_octetstring(input),
        5 => parse_der_null(input),
        6 => parse_der_oid(input),
        7 => parse_der_objectdescriptor(input),
        10 => parse_der_enum(input),
        12 => parse_der_utf8string(input),
        13 => parse_der_relative_oid(input),
        16 => parse_der_sequence(alloc, input),
        17 => parse_der_set(alloc, input),
        18 => parse_der_numericstring(input),
        19 => parse_der_printablestring(input),
        20 => parse_der_t61string(input),
        21 => parse_der_videotexstring(input),
        22 => parse_der_ia5string(input),
        23 => parse_der_utctime(input),
        24 => parse_der_generalizedtime(input),
        25 => parse_der_graphicstring(input),
        26 => parse_der_visiblestring(input),
        27 => parse_der_generalstring(input),
        28 => parse_der_universalstring(input),
        30 => parse_der_bmpstring(input),
        _ => parse_der(alloc, input),
    }
}

/// What the reader of the type that the identifier's number names answers by BER.
pub fn read_typed_by_ber(alloc: Global, input: &[u8]) -> BerResult<'_> {
    read_type_by_ber(alloc, number_of(input), input)
}

/// What the reader of the type that the identifier's number names answers by DER.
pub fn read_typed_by_der(alloc: Global, input: &[u8]) -> BerResult<'_> {
    read_type_by_der(alloc, number_of(input), input)
}

/// The number in an identifier of one octet; 31 where there is none.
fn number_of(input: &[u8]) -> u32 {
    input.first().map_or(31, |octet| u32::from(octet % 32))
}
