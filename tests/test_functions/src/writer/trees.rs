//! Random trees of values: `parse_der` reads what is written of each as the same tree.
use der_base::header::{Class, Tag};
use der_parser::ber::{BerObject, BerObjectContent};
use der_parser::parse_der;
use der_writer::{WriteError, Writer};
use std::alloc::Global;

/// How many trees a test writes. Ten tests write 100,000.
const TREES: u64 = 10_000;

/// How many lists are inside one another at most.
const DEPTH: usize = 5;

/// How many fields a list has at most.
const FIELDS: usize = 4;

/// Octets of which strings are the first ones.
const OCTETS: [u8; 300] = [0xa5; 300];

/// The letters of which texts are the first ones.
const LETTERS: &str = "Random trees of values, as texts";

/// Arcs, and the content octets of their identifiers, by `openssl asn1parse -genstr OID:..`.
const IDENTIFIERS: [(&[u64], &[u8]); 4] = [
    (&[2, 5, 4, 3], b"\x55\x04\x03"),
    (&[2, 999, 3], b"\x88\x37\x03"),
    (&[1, 2, 840, 113549], b"\x2a\x86\x48\x86\xf7\x0d"),
    (&[0, 39], b"\x27"),
];

/// Numbers by xorshift: the same from the same seed.
#[derive(Drop)]
struct Random {
    state: u64,
}

impl Random {
    fn next(&mut self) -> u64 {
        self.state ^= self.state << 13;
        self.state ^= self.state >> 7;
        self.state ^= self.state << 17;
        self.state
    }

    /// A number below a bound.
    fn below(&mut self, bound: usize) -> usize {
        (self.next() % (bound as u64)) as usize
    }

    /// A number of any size below 2^63.
    fn natural(&mut self) -> u64 {
        let shift = 1 + self.below(63);
        self.next() >> shift
    }

    /// A field that is no list, or any.
    fn field(&mut self, depth: usize) -> Field {
        match self.below(if depth == 0 { 9 } else { 13 }) {
            0 => Field::Boolean(self.below(2) == 0),
            1 => Field::Integer(self.natural() as i64),
            2 => Field::Integer(-1 - self.natural() as i64),
            3 => Field::Enumerated(self.natural()),
            4 => Field::Octets(self.below(OCTETS.len())),
            5 => Field::Bits(self.below(8) as u8, self.below(4)),
            6 => Field::Identifier(self.below(IDENTIFIERS.len())),
            7 => Field::Text(self.below(LETTERS.len())),
            8 => Field::Implicit(self.number(), self.below(140)),
            9 => Field::Sequence,
            10 => Field::Set,
            11 => Field::Explicit(self.number()),
            _ => Field::InOctets,
        }
    }

    /// A tag number.
    fn number(&mut self) -> u32 {
        let shift = 32 + self.below(32);
        (self.next() >> shift) as u32
    }
}

/// A field of a tree.
#[derive(Clone, Copy)]
enum Field {
    Boolean(bool),
    Integer(i64),
    Enumerated(u64),
    /// An OCTET STRING of so many octets.
    Octets(usize),
    /// A BIT STRING of so many octets, of whose last one so many bits aren't used.
    Bits(u8, usize),
    /// One of the identifiers.
    Identifier(usize),
    /// A UTF8String of so many letters.
    Text(usize),
    /// So many octets under an implicit tag.
    Implicit(u32, usize),
    Sequence,
    Set,
    /// Fields under an explicit tag.
    Explicit(u32),
    /// Fields in an OCTET STRING.
    InOctets,
}

/// Puts the fields of a list.
#[cycle(putting)]
fn put_fields(fields: &mut Writer<'_>, random: &mut Random, depth: usize) {
    for _ in 0..random.below(FIELDS + 1) {
        put_field(fields, random, depth);
    }
}

#[cycle(putting)]
fn put_field(fields: &mut Writer<'_>, random: &mut Random, depth: usize) {
    match random.field(depth) {
        Field::Boolean(value) => fields.put_bool(value),
        Field::Integer(value) => fields.put_i64(value),
        Field::Enumerated(value) => fields.put_enumerated(value),
        Field::Octets(size) => fields.put_octets(&OCTETS[..size]),
        Field::Bits(unused, size) => fields.put_bits(unused, &OCTETS[..size]),
        Field::Identifier(index) => {
            let _ = fields.put_arcs(IDENTIFIERS[index].0);
        }
        Field::Text(size) => fields.put_utf8(&LETTERS[..size]),
        Field::Implicit(number, size) => fields.implicit(number).put_octets(&OCTETS[..size]),
        Field::Sequence => {
            let list = fields.open_sequence();
            put_fields(fields, random, depth - 1);
            fields.close(list);
        }
        Field::Set => {
            let list = fields.open_set();
            put_fields(fields, random, depth - 1);
            fields.close(list);
        }
        Field::Explicit(number) => {
            let tag = fields.open_tagged(number);
            put_fields(fields, random, depth - 1);
            fields.close(tag);
        }
        Field::InOctets => {
            let string = fields.open_octet_string();
            put_fields(fields, random, depth - 1);
            fields.close(string);
        }
    }
}

/// Whether these are the fields of a list, and no more.
#[cycle(comparing)]
fn are_fields(
    alloc: Global,
    objects: &[BerObject<'_>],
    random: &mut Random,
    depth: usize,
) -> bool {
    if objects.len() != random.below(FIELDS + 1) {
        return false;
    }
    for object in objects {
        if !is_field(alloc, object, random, depth) {
            return false;
        }
    }
    true
}

/// Whether octets are those of the fields of a list, and no more.
#[cycle(comparing)]
fn are_encoded(alloc: Global, octets: &[u8], random: &mut Random, depth: usize) -> bool {
    let mut left = octets;
    for _ in 0..random.below(FIELDS + 1) {
        let Ok((rest, object)) = parse_der(alloc, left) else {
            return false;
        };
        if !is_field(alloc, &object, random, depth) {
            return false;
        }
        left = rest;
    }
    left.is_empty()
}

#[cycle(comparing)]
fn is_field(alloc: Global, object: &BerObject<'_>, random: &mut Random, depth: usize) -> bool {
    match (random.field(depth), &object.content) {
        (Field::Boolean(value), BerObjectContent::Boolean(read)) => value == *read,
        (Field::Integer(value), BerObjectContent::Integer(_)) => object.as_i64() == Ok(value),
        (Field::Enumerated(value), BerObjectContent::Enum(read)) => value == *read,
        (Field::Octets(size), BerObjectContent::OctetString(read)) => *read == &OCTETS[..size],
        (Field::Bits(unused, size), BerObjectContent::BitString(read, bits)) => {
            are_bits(unused, size, *read, bits.bytes)
        }
        (Field::Identifier(index), BerObjectContent::OID(read)) => {
            read.as_bytes() == IDENTIFIERS[index].1
        }
        (Field::Text(size), BerObjectContent::UTF8String(read)) => *read == &LETTERS[..size],
        (Field::Implicit(number, size), BerObjectContent::Unknown(read)) => {
            is_tagged(object, false, number) && read.bytes == &OCTETS[..size]
        }
        (Field::Sequence, BerObjectContent::Sequence(read)) => {
            are_fields(alloc, read, random, depth - 1)
        }
        (Field::Set, BerObjectContent::Set(read)) => are_fields(alloc, read, random, depth - 1),
        (Field::Explicit(number), BerObjectContent::Unknown(read)) => {
            is_tagged(object, true, number) && are_encoded(alloc, read.bytes, random, depth - 1)
        }
        (Field::InOctets, BerObjectContent::OctetString(read)) => {
            are_encoded(alloc, read, random, depth - 1)
        }
        _ => false,
    }
}

/// Whether an object has a tag of the class context-specific.
fn is_tagged(object: &BerObject<'_>, constructed: bool, number: u32) -> bool {
    object.header.class() == Class::ContextSpecific
        && object.header.is_constructed() == constructed
        && object.header.tag() == Tag(number)
}

/// Whether so many octets were read as bits, with those that aren't used 0 (X.690 11.2.1).
fn are_bits(unused: u8, size: usize, read_unused: u8, read: &[u8]) -> bool {
    let Some((last, others)) = read.split_last() else {
        return size == 0 && read_unused == 0;
    };
    let mask: u8 = (0xff >> unused) << unused;
    size == read.len()
        && read_unused == unused
        && others == &OCTETS[..size - 1]
        && *last == OCTETS[size - 1] & mask
}

/// The size of a buffer for a tree.
const SIZE: usize = 1 << 16;

/// Writes a tree: a SEQUENCE of fields.
fn write_tree(out: &mut [u8], seed: u64) -> Result<usize, WriteError> {
    let mut random = Random { state: seed };
    let mut fields = Writer::new(out);
    let list = fields.open_sequence();
    put_fields(&mut fields, &mut random, DEPTH);
    fields.close(list);
    fields.finish()
}

/// Whether octets are one object by DER, the same tree.
fn is_tree(alloc: Global, octets: &[u8], seed: u64) -> bool {
    let mut random = Random { state: seed };
    let Ok((rest, object)) = parse_der(alloc, octets) else {
        return false;
    };
    let BerObjectContent::Sequence(items) = &object.content else {
        return false;
    };
    rest.is_empty() && are_fields(alloc, items, &mut random, DEPTH)
}

/// The first seed whose tree isn't read as it was written, and how many octets all have.
fn first_lost(alloc: Global, part: u64) -> (Option<u64>, usize) {
    let mut seeds = Random { state: 0x2545_f491_4f6c_dd1d + part };
    let mut buffer = [0; SIZE];
    let mut count = 0;
    for _ in 0..TREES {
        let seed = seeds.next();
        match write_tree(&mut buffer, seed) {
            Ok(size) if is_tree(alloc, &buffer[..size], seed) => count += size,
            _ => return (Some(seed), count),
        }
    }
    (None, count)
}

/// Whether all trees of a part are read as they were written. They have more than 50 octets on average.
fn are_read_back(alloc: Global, part: u64) -> bool {
    let (lost, count) = first_lost(alloc, part);
    lost.is_none() && count > 500_000
}

#[test]
fn first_part_of_the_trees(rt: HostRuntime) {
    assert!(rt; are_read_back(rt.alloc(), 0));
}

#[test]
fn second_part_of_the_trees(rt: HostRuntime) {
    assert!(rt; are_read_back(rt.alloc(), 1));
}

#[test]
fn third_part_of_the_trees(rt: HostRuntime) {
    assert!(rt; are_read_back(rt.alloc(), 2));
}

#[test]
fn fourth_part_of_the_trees(rt: HostRuntime) {
    assert!(rt; are_read_back(rt.alloc(), 3));
}

#[test]
fn fifth_part_of_the_trees(rt: HostRuntime) {
    assert!(rt; are_read_back(rt.alloc(), 4));
}

#[test]
fn sixth_part_of_the_trees(rt: HostRuntime) {
    assert!(rt; are_read_back(rt.alloc(), 5));
}

#[test]
fn seventh_part_of_the_trees(rt: HostRuntime) {
    assert!(rt; are_read_back(rt.alloc(), 6));
}

#[test]
fn eighth_part_of_the_trees(rt: HostRuntime) {
    assert!(rt; are_read_back(rt.alloc(), 7));
}

#[test]
fn ninth_part_of_the_trees(rt: HostRuntime) {
    assert!(rt; are_read_back(rt.alloc(), 8));
}

#[test]
fn tenth_part_of_the_trees(rt: HostRuntime) {
    assert!(rt; are_read_back(rt.alloc(), 9));
}
