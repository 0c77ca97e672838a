//! Values that are cut to a width. The columns of a line are counted by hand: 19 for its numbers, those of the type,
//! and those of the value with the space before it.
use der_print::{Limit, Room, Style, write_line};
use der_elements::{Rules, Walk};
use std::alloc::Global;
use std::io;
use std::process::Abort;
use std::test::Fail;

/// An element, and its line.
struct Row {
    name: &'static str,
    octets: &'static [u8],
    limit: Limit,
    line: &'static str,
}

/// 24 octets that are no text.
const OCTETS: &[u8] =
    b"\x04\x18\x80\x81\x82\x83\x84\x85\x86\x87\x88\x89\x8a\x8b\x8c\x8d\x8e\x8f\x90\x91\x92\x93\x94\x95\x96\x97";

/// 16 octets, whose last three bits are unused.
const BITS: &[u8] = b"\x03\x11\x03\x80\x81\x82\x83\x84\x85\x86\x87\x88\x89\x8a\x8b\x8c\x8d\x8e\x90";

/// A number of 20 octets.
const NUMBER: &[u8] =
    b"\x02\x14\x01\x02\x03\x04\x05\x06\x07\x08\x09\x0a\x0b\x0c\x0d\x0e\x0f\x10\x11\x12\x13\x14";

/// A negative number of 12 octets.
const NEGATIVE: &[u8] = b"\x02\x0c\x80\x02\x03\x04\x05\x06\x07\x08\x09\x0a\x0b\x0c";

/// A text of 41 octets with two quotes and a line feed.
const TEXT: &[u8] = b"\x0c\x29one \"two\" three\nfour five six seven eight";

/// A text of 33 octets.
const PLAIN_TEXT: &[u8] = b"\x0c\x21one two three four five six seven";

/// A text of 30 characters in 60 octets.
const WIDE_TEXT: &[u8] = b"\
        \x0c\x3c\xc3\xab\xc3\xab\xc3\xab\xc3\xab\xc3\xab\xc3\xab\xc3\xab\xc3\xab\xc3\xab\xc3\xab\xc3\xab\xc3\xab\xc3\
        \xab\xc3\xab\xc3\xab\xc3\xab\xc3\xab\xc3\xab\xc3\xab\xc3\xab\xc3\xab\xc3\xab\xc3\xab\xc3\xab\xc3\xab\xc3\xab\
        \xc3\xab\xc3\xab\xc3\xab\xc3\xab";

/// A text of 20 characters of two octets each.
const UNITS: &[u8] = b"\x1e\x28\0a\0b\0c\0d\0e\0f\0g\0h\0i\0j\0k\0l\0m\0n\0o\0p\0q\0r\0s\0t";

const ROWS: [Row; 26] = [
    Row {
        name: "octets that fit",
        octets: OCTETS,
        limit: Limit::Columns(80),
        line: "      0  2+24      OCTET STRING 808182838485868788898a8b8c8d8e8f9091929394959697\n",
    },
    Row {
        name: "octets, one column less",
        octets: OCTETS,
        limit: Limit::Columns(79),
        line: "      0  2+24      OCTET STRING 808182838485868788898a8b8c8d8e... (24 octets)\n",
    },
    Row {
        name: "octets in 26 columns, with their number",
        octets: OCTETS,
        limit: Limit::Columns(57),
        line: "      0  2+24      OCTET STRING 80818283... (24 octets)\n",
    },
    Row {
        name: "octets in 25 columns, without their number",
        octets: OCTETS,
        limit: Limit::Columns(56),
        line: "      0  2+24      OCTET STRING 80818283848586878889...\n",
    },
    Row {
        name: "two columns behind the type",
        octets: OCTETS,
        limit: Limit::Columns(33),
        line: "      0  2+24      OCTET STRING..\n",
    },
    Row {
        name: "no column behind the type",
        octets: OCTETS,
        limit: Limit::Columns(31),
        line: "      0  2+24      OCTET STRING\n",
    },
    Row {
        name: "a type that is cut",
        octets: OCTETS,
        limit: Limit::Columns(30),
        line: "      0  2+24      OCTET ST...\n",
    },
    Row {
        name: "numbers that are cut",
        octets: OCTETS,
        limit: Limit::Columns(10),
        line: "      0...\n",
    },
    Row {
        name: "no columns",
        octets: OCTETS,
        limit: Limit::Columns(0),
        line: "\n",
    },
    Row {
        name: "octets in a pipe",
        octets: OCTETS,
        limit: Limit::Front,
        line: "      0  2+24      OCTET STRING 808182838485868788898a8b8c8d8e8f9091929394959697\n",
    },
    Row {
        name: "bits that fit",
        octets: BITS,
        limit: Limit::Columns(78),
        line: "      0  2+17      BIT STRING 808182838485868788898a8b8c8d8e90 (3 bits unused)\n",
    },
    Row {
        name: "bits, one column less",
        octets: BITS,
        limit: Limit::Columns(77),
        line: "      0  2+17      BIT STRING 80818283848586... (16 octets) (3 bits unused)\n",
    },
    Row {
        name: "a number that fits",
        octets: NUMBER,
        limit: Limit::Columns(69),
        line: "      0  2+20      INTEGER 0x0102030405060708090a0b0c0d0e0f1011121314\n",
    },
    Row {
        name: "a number, one column less",
        octets: NUMBER,
        limit: Limit::Columns(68),
        line: "      0  2+20      INTEGER 0x0102030405060708090a0b... (20 octets)\n",
    },
    Row {
        name: "a negative number that fits",
        octets: NEGATIVE,
        limit: Limit::Columns(85),
        line: "      0  2+12      INTEGER 0x8002030405060708090a0b0c (negative, in two's complement)\n",
    },
    Row {
        name: "a negative number, one column less",
        octets: NEGATIVE,
        limit: Limit::Columns(84),
        line: "      0  2+12      INTEGER 0x8002030405060708090a... (negative, in two's complement)\n",
    },
    Row {
        name: "a text that fits with its escapes",
        octets: TEXT,
        limit: Limit::Columns(76),
        line: "      0  2+41      UTF8String \"one \\\"two\\\" three\\nfour five six seven eight\"\n",
    },
    Row {
        name: "a text that fits without its escapes",
        octets: TEXT,
        limit: Limit::Columns(73),
        line: "      0  2+41      UTF8String \"one \\\"two\\\" three\\nfour five six seven ...\n",
    },
    Row {
        name: "a text, one column less, whose escapes need three of those of its number",
        octets: TEXT,
        limit: Limit::Columns(72),
        line: "      0  2+41      UTF8String \"one \\\"two\\\" three\\nfour fi...\" (41 oct...\n",
    },
    Row {
        name: "a text in 29 columns, without its number",
        octets: PLAIN_TEXT,
        limit: Limit::Columns(58),
        line: "      0  2+33      UTF8String \"one two three four five...\"\n",
    },
    Row {
        name: "a text in 30 columns, with its number",
        octets: PLAIN_TEXT,
        limit: Limit::Columns(59),
        line: "      0  2+33      UTF8String \"one two th...\" (33 octets)\n",
    },
    Row {
        name: "a text, whole",
        octets: TEXT,
        limit: Limit::Whole,
        line: "      0  2+41      UTF8String \"one \\\"two\\\" three\\nfour five six seven eight\"\n",
    },
    Row {
        name: "fewer characters than columns, and more octets",
        octets: WIDE_TEXT,
        limit: Limit::Columns(91),
        line: "      0  2+60      UTF8String \"ëëëëëëëëëëëëëëëëëëëëëëëëëëëëëë\"\n",
    },
    Row {
        name: "characters of two octets",
        octets: WIDE_TEXT,
        limit: Limit::Columns(69),
        line: "      0  2+60      UTF8String \"ëëëëëëëëëëëëëëëëëëëë...\" (60 octets)\n",
    },
    Row {
        name: "units that fit",
        octets: UNITS,
        limit: Limit::Columns(70),
        line: "      0  2+40      BMPString \"abcdefghijklmnopqrst\"\n",
    },
    Row {
        name: "units that don't fit",
        octets: UNITS,
        limit: Limit::Columns(58),
        line: "      0  2+40      BMPString \"abcdefghij...\" (40 octets)\n",
    },
];

/// The line of the first element of octets.
fn line_of(alloc: Global, octets: &[u8], limit: Limit) -> io::Result<Vec<u8>> {
    let mut out = Vec::new(alloc);
    let style = Style {
        limit,
        colours: false,
    };
    let mut walk = Walk::new(octets, Rules::Ber, false);
    if let Ok(Some(element)) = walk.next_element() {
        write_line(&mut out, &mut Room::new(alloc), &element, style)?;
    }
    Ok(out)
}

/// The row's element has its line.
fn expect_line(rt: &(impl Abort + AllocGlobal), row: &Row) -> Result<(), Fail> {
    let line = line_of(rt.alloc(), row.octets, row.limit)?;
    assert_eq!(rt; line.as_slice(), row.line.as_bytes(), "{}", row.name);
    Ok(())
}

#[test]
fn values_are_cut(rt: HostRuntime) -> Result<(), Fail> {
    for row in &ROWS {
        expect_line(&rt, row)?;
    }
    Ok(())
}
