//! Visitors with one function, and what visitors change.
ghost use Rattle.std.specs.Prelude.{⊤, ◌≡◌, ◌+◌, ◌*◌, ◌-◌, ◌^◌, min};

use der_parser::ber::Class::ContextSpecific;
use der_parser::ber::{BerObject, BerObjectContent, Tag, VisitMut, Walk, WalkMut, parse_ber};
use der_parser::parse_der;
use std::alloc::Global;
use std::process::Abort;
use std::test::Fail;

/// A box of a SEQUENCE with an item.
fn boxed_list(alloc: Global) -> Result<Box<BerObject<'static>>, Fail> {
    let (_, list) = parse_der(alloc, b"\x30\x02\x05\x00")?;
    Ok(Box::new(alloc, list)?)
}

/// How many objects were visited, and their depths as decimal digits, that of the first in front.
#[derive(Clone, Copy)]
struct Depths {
    count: u64,
    digits: u64,
}

impl Walk for Depths {
    ghost step = { λ s _ _ t. t.count ≡ min (s.count + 1) (2 ^ 64 - 1) };

    fn visit_object<'t>(&mut self, _object: &BerObject<'t>, depth: usize) {
        self.count = self.count.saturating_add(1);
        self.digits = self.digits.saturating_mul(10).saturating_add(depth as u64);
    }
}

/// Adds a SET of NULL and a SEQUENCE of NULL, a SEQUENCE of NULL in a tag, and an INTEGER.
fn push_nested(items: &mut Vec<BerObject<'static>>, alloc: Global) -> Result<(), Fail> {
    let (_, set) = parse_der(alloc, b"\x31\x06\x05\x00\x30\x02\x05\x00")?;
    items.push(set)?;
    let tagged = BerObjectContent::Tagged(ContextSpecific, Tag(0), boxed_list(alloc)?);
    items.push(BerObject::from_obj(tagged))?;
    let (_, integer) = parse_der(alloc, b"\x02\x01\x05")?;
    items.push(integer)?;
    Ok(())
}

/// A SEQUENCE of those items.
fn nested_object(alloc: Global) -> Result<BerObject<'static>, Fail> {
    let mut items = Vec::new(alloc);
    push_nested(&mut items, alloc)?;
    Ok(BerObject::from_seq(items))
}

/// How many objects are visited from this depth, and their depths.
fn depths_of(object: &BerObject<'_>, depth: usize) -> (u64, u64) {
    let mut depths = Depths {
        count: 0,
        digits: 0,
    };
    depths.walk_at(object, depth);
    (depths.count, depths.digits)
}

/// The visitor with one function is called at the SEQUENCE, the SET, its NULL, its SEQUENCE and the
/// NULL in it, the tagged object and the INTEGER, and at nothing inside the tag.
fn expect_depths(rt: &impl Abort, object: &BerObject<'_>) -> Result<(), Fail> {
    assert_eq!(rt; depths_of(object, 0), (7, 122311));
    assert_eq!(rt; depths_of(object, 4), (7, 4566755));
    Ok(())
}

#[test]
fn walk_visits_each_object_once(rt: HostRuntime) -> Result<(), Fail> {
    let object = nested_object(rt.alloc())?;
    expect_depths(&rt, &object)
}

/// Turns each truth value round.
#[derive(Clone, Copy)]
struct Negate;

impl VisitMut for Negate {
    ghost content_step = { λ _ _ _ _ _. ⊤ };

    fn visit_ber_boolean_mut(&mut self, value: &mut bool, _depth: usize) {
        *value = !*value;
    }
}

/// Puts NULL in the place of each INTEGER's content, and counts the NULLs that are visited.
#[derive(Clone, Copy)]
struct Nullify {
    nulls: u8,
}

impl VisitMut for Nullify {
    ghost object_step = { λ _ _ _ _ _. ⊤ };

    ghost content_step = { λ _ _ _ _ _. ⊤ };

    fn visit_ber_mut<'t>(&mut self, object: &mut BerObject<'t>, _depth: usize) {
        if let BerObjectContent::Integer(_) = object.content {
            object.content = BerObjectContent::Null;
        }
    }

    fn visit_ber_null_mut(&mut self, _depth: usize) {
        self.nulls = self.nulls.saturating_add(1);
    }
}

/// Takes the items out of each SEQUENCE, and counts the truth values that are visited.
#[derive(Clone, Copy)]
struct Clear {
    alloc: Global,
    booleans: u8,
}

impl VisitMut for Clear {
    ghost content_step = { λ _ _ _ _ _. ⊤ };

    fn visit_ber_sequence_mut<'t>(&mut self, items: &mut Vec<BerObject<'t>>, _depth: usize) {
        *items = Vec::new(self.alloc);
    }

    fn visit_ber_boolean_mut(&mut self, _value: &mut bool, _depth: usize) {
        self.booleans = self.booleans.saturating_add(1);
    }
}

/// The object is written so.
fn expect_written(
    rt: &(impl Abort + AllocGlobal),
    object: &BerObject<'_>,
    written: &[u8],
) -> Result<(), Fail> {
    let given = object.to_vec(rt.alloc())?;
    assert_eq!(rt; given.as_slice(), written);
    Ok(())
}

#[test]
fn values_are_changed_in_place(rt: HostRuntime) -> Result<(), Fail> {
    let (_, mut object) = parse_ber(rt.alloc(), b"\x30\x03\x01\x01\x00")?;
    Negate.run(&mut object);
    expect_written(&rt, &object, b"\x30\x03\x01\x01\xff")
}

/// NULL is put in the place of an INTEGER's content, and visited.
fn expect_nullified(
    rt: &(impl Abort + AllocGlobal),
    object: &mut BerObject<'_>,
) -> Result<(), Fail> {
    let mut nullify = Nullify { nulls: 0 };
    nullify.run(object);
    assert_eq!(rt; nullify.nulls, 1);
    expect_written(rt, object, b"\x30\x02\x02\x00")
}

#[test]
fn contents_are_changed_in_place(rt: HostRuntime) -> Result<(), Fail> {
    let (_, mut object) = parse_ber(rt.alloc(), b"\x30\x03\x02\x01\x05")?;
    expect_nullified(&rt, &mut object)
}

/// The items of a SEQUENCE are taken out, and only what stands behind it is visited.
fn expect_cleared(rt: &(impl Abort + AllocGlobal), object: &mut BerObject<'_>) -> Result<(), Fail> {
    let mut clear = Clear {
        alloc: rt.alloc(),
        booleans: 0,
    };
    clear.run(object);
    assert_eq!(rt; clear.booleans, 1);
    expect_written(rt, object, b"\x31\x05\x30\x00\x01\x01\x00")
}

#[test]
fn items_are_taken_out(rt: HostRuntime) -> Result<(), Fail> {
    let input = b"\x31\x08\x30\x03\x01\x01\x00\x01\x01\x00";
    let (_, mut object) = parse_ber(rt.alloc(), input)?;
    expect_cleared(&rt, &mut object)
}

/// Puts NULL in the place of each INTEGER's content by one function, and counts the objects.
#[derive(Clone, Copy)]
struct NullifyEach {
    objects: u64,
}

impl WalkMut for NullifyEach {
    ghost step = { λ s _ _ t _. t.objects ≡ min (s.objects + 1) (2 ^ 64 - 1) };

    fn visit_object_mut<'t>(&mut self, object: &mut BerObject<'t>, _depth: usize) {
        if let BerObjectContent::Integer(_) = object.content {
            object.content = BerObjectContent::Null;
        }
        self.objects = self.objects.saturating_add(1);
    }
}

/// NULL is put in the place of both INTEGERs' contents, and four objects are visited.
fn expect_each_nullified(
    rt: &(impl Abort + AllocGlobal),
    object: &mut BerObject<'_>,
) -> Result<(), Fail> {
    let mut nullify = NullifyEach { objects: 0 };
    nullify.walk_mut(object);
    assert_eq!(rt; nullify.objects, 4);
    expect_written(rt, object, b"\x30\x06\x02\x00\x31\x02\x02\x00")
}

#[test]
fn each_object_is_changed_in_place(rt: HostRuntime) -> Result<(), Fail> {
    let (_, mut object) = parse_ber(rt.alloc(), b"\x30\x08\x02\x01\x05\x31\x03\x02\x01\x06")?;
    expect_each_nullified(&rt, &mut object)
}
