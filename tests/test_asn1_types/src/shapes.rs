//! What modules become: rows of a module's tagging, its types, the type that is asked, and what it is.
//!
//! A type is its tag (U, A, P for its class) with `+` if it is constructed, or `*` if it may be both, and the
//! components inside it: `{}` in this order, `()` in any order, `[]` the item, `//` in a string, `<>` alternatives.

use crate::texts::text_of;
use std::alloc::AllocError;

const SHAPES: &[(&str, &str, &str)] = &[
    // universal tags (X.680 8.4)
    ("", "A ::= BOOLEAN", "U1"),
    ("", "A ::= INTEGER { a(1), b(2) } (1 | 2)", "U2"),
    ("", "A ::= BIT STRING { a(0) }", "U3*"),
    ("", "A ::= OCTET STRING", "U4*"),
    ("", "A ::= NULL", "U5"),
    ("", "A ::= OBJECT IDENTIFIER", "U6"),
    ("", "A ::= ObjectDescriptor", "U7*"),
    ("", "A ::= EXTERNAL", "U8+"),
    ("", "A ::= REAL", "U9"),
    ("", "A ::= ENUMERATED { a, b, ..., c }", "U10"),
    ("", "A ::= EMBEDDED PDV", "U11+"),
    ("", "A ::= UTF8String", "U12*"),
    ("", "A ::= RELATIVE-OID", "U13"),
    ("", "A ::= TIME", "U14"),
    ("", "A ::= NumericString", "U18*"),
    ("", "A ::= PrintableString", "U19*"),
    ("", "A ::= T61String", "U20*"),
    ("", "A ::= TeletexString", "U20*"),
    ("", "A ::= VideotexString", "U21*"),
    ("", "A ::= IA5String", "U22*"),
    ("", "A ::= UTCTime", "U23*"),
    ("", "A ::= GeneralizedTime", "U24*"),
    ("", "A ::= GraphicString", "U25*"),
    ("", "A ::= VisibleString", "U26*"),
    ("", "A ::= ISO646String", "U26*"),
    ("", "A ::= GeneralString", "U27*"),
    ("", "A ::= UniversalString", "U28*"),
    ("", "A ::= CHARACTER STRING", "U29+"),
    ("", "A ::= BMPString", "U30*"),
    ("", "A ::= DATE", "U31"),
    ("", "A ::= TIME-OF-DAY", "U32"),
    ("", "A ::= DATE-TIME", "U33"),
    ("", "A ::= DURATION", "U34"),
    ("", "A ::= OID-IRI", "U35"),
    ("", "A ::= RELATIVE-OID-IRI", "U36"),
    // lists
    ("", "A ::= SEQUENCE { a NULL, b BOOLEAN OPTIONAL, c INTEGER DEFAULT 5 }", "U16+{a:U5 b?:U1 c?:U2}"),
    ("", "A ::= SET { a NULL, b BOOLEAN }", "U17+(a:U5 b:U1)"),
    ("", "A ::= SEQUENCE OF a NULL", "U16+[a:U5]"),
    ("", "A ::= SET OF B B ::= NULL", "U17+[:U5]"),
    ("", "A ::= SEQUENCE { a A OPTIONAL, b SEQUENCE OF A }",
        "U16+{a?:U16+{a?:U16+{a?:U16+{} b:U16+[]} b:U16+[:U16+{}]} b:U16+[:U16+{a?:U16+{} b:U16+[]}]}"),
    ("", "A ::= CHOICE { a NULL, b B } B ::= [1] NULL", "<a:U5 b:1+{:U5}>"),
    ("", "A ::= CHOICE { a NULL, b B } B ::= CHOICE { c INTEGER, d C } C ::= CHOICE { e BOOLEAN }",
        "<a:U5 c:U2 e:U1>"),
    ("", "A ::= SEQUENCE { a CHOICE { b A, c NULL } }", "U16+{a:<b:U16+{a:<>} c:U5>}"),
    ("", "A ::= SEQUENCE { a NULL, ..., b NULL, [[ c BOOLEAN, d [0] NULL ]], ..., e NULL }",
        "U16+{a:U5 b?:U5 c?:U1 d?:0+{:U5} e:U5}"),
    // tags (31.2): the examples of X.680 31.2.9
    ("", "A ::= [APPLICATION 3] IMPLICIT B B ::= VisibleString", "A3*"),
    ("", "A ::= [2] C C ::= [APPLICATION 3] IMPLICIT B B ::= VisibleString", "2+{:A3*}"),
    ("", "A ::= [APPLICATION 7] IMPLICIT D D ::= [2] C C ::= [APPLICATION 3] IMPLICIT B B ::= VisibleString",
        "A7+{:A3*}"),
    ("", "A ::= [2] IMPLICIT B B ::= VisibleString", "2*"),
    ("IMPLICIT TAGS", "A ::= [2] [1] SEQUENCE { a NULL }", "2+{a:U5}"),
    ("IMPLICIT TAGS", "A ::= [PRIVATE 2] EXPLICIT [1] INTEGER", "P2+{:1}"),
    ("IMPLICIT TAGS", "A ::= [2] CHOICE { a NULL }", "2+{:<a:U5>}"),
    ("IMPLICIT TAGS", "A ::= [2] [1] B B ::= C C ::= CHOICE { a NULL }", "2+{:<a:U5>}"),
    ("IMPLICIT TAGS", "A ::= [2] [1] EXPLICIT B B ::= C C ::= CHOICE { a NULL }", "2+{:<a:U5>}"),
    ("", "A ::= [2] IMPLICIT CHOICE { a NULL }", "2+{:<a:U5>}"),
    ("", "A ::= [2] IMPLICIT ANY", "2+{:ANY}"),
    ("", "A ::= SEQUENCE { a [n] IMPLICIT NULL, b [m] IMPLICIT NULL } n INTEGER ::= 7 m INTEGER ::= n",
        "U16+{a:7 b:7}"),
    ("IMPLICIT TAGS", "A ::= SEQUENCE { a [0] A OPTIONAL }", "U16+{a?:0+{a?:0+{a?:0+{}}}}"),
    ("IMPLICIT TAGS", "A ::= [0] EXPLICIT A", "0+{:0+{:0+{:0+{}}}}"),
    // automatic tags: the examples of 25.8, notes 2 and 3, and the exceptions of 25.3, 29.3, 31.2.7 c
    ("AUTOMATIC TAGS", "A ::= SEQUENCE { a INTEGER, b [1] BOOLEAN, c OCTET STRING }", "U16+{a:U2 b:1 c:U4*}"),
    ("AUTOMATIC TAGS", "A ::= SEQUENCE { a NULL, b T, c NULL } T ::= SEQUENCE { x NULL, y NULL }",
        "U16+{a:0 b:1+{x:0 y:1} c:2}"),
    ("AUTOMATIC TAGS", "A ::= SEQUENCE { x NULL, COMPONENTS OF T, y NULL } \
        T ::= SEQUENCE { a NULL, b SEQUENCE { b1 NULL, b2 NULL }, c NULL }",
        "U16+{x:0 a:1 b:2+{b1:0 b2:1} c:3 y:4}"),
    ("AUTOMATIC TAGS", "A ::= SEQUENCE { x NULL, COMPONENTS OF T } T ::= SEQUENCE { a [5] NULL, b INTEGER }",
        "U16+{x:0 a:1 b:2}"),
    ("AUTOMATIC TAGS", "A ::= SEQUENCE { x [9] NULL, COMPONENTS OF T } T ::= SEQUENCE { a NULL, b INTEGER }",
        "U16+{x:9 a:0 b:1}"),
    ("", "A ::= SEQUENCE { COMPONENTS OF T, x NULL } T ::= SEQUENCE { a NULL, ..., b INTEGER, ..., c BOOLEAN }",
        "U16+{a:U5 c:U1 x:U5}"),
    ("AUTOMATIC TAGS", "A ::= SET { a NULL, ..., b NULL, [[ c NULL ]], ..., d NULL }", "U17+(a:0 b?:2 c?:3 d:1)"),
    ("AUTOMATIC TAGS", "A ::= SEQUENCE { a NULL, ..., [[ b [5] NULL ]] }", "U16+{a:U5 b?:5}"),
    ("AUTOMATIC TAGS", "A ::= CHOICE { a NULL, b B, c CHOICE { d NULL }, e ANY } B ::= SEQUENCE { x A }",
        "<a:0 b:1+{x:0+{:<>}} c:2+{:<d:0>} e:3+{:ANY}>"),
    ("AUTOMATIC TAGS", "A ::= CHOICE { a [1] NULL, c CHOICE { d NULL } }", "<a:1 d:0>"),
    ("AUTOMATIC TAGS", "A ::= SEQUENCE { a A OPTIONAL }", "U16+{a?:0+{a?:0+{a?:0+{}}}}"),
    ("AUTOMATIC TAGS", "A ::= SEQUENCE OF SEQUENCE { a NULL }", "U16+[:U16+{a:0}]"),
    // selection types (30), strings that contain a type (X.682 11)
    ("", "A ::= SEQUENCE { x a < B, y b < B } B ::= CHOICE { a NULL, b [1] INTEGER }", "U16+{x:U5 y:1+{:U2}}"),
    ("", "A ::= x < y < B B ::= CHOICE { y CHOICE { x NULL } }", "U5"),
    ("", "A ::= a < B B ::= CHOICE { x CHOICE { a NULL }, ..., [[ a INTEGER ]] }", "U2"),
    ("", "A ::= OCTET STRING (SIZE (5)) (CONTAINING B) B ::= NULL", "U4*/:U5/"),
    ("", "A ::= [1] IMPLICIT BIT STRING (CONTAINING B ENCODED BY x) B ::= NULL", "1*/:U5/"),
    ("", "A ::= OCTET STRING (CONTAINING B.&C)", "U4*"),
    // any element
    ("", "A ::= ANY DEFINED BY a", "ANY"),
    ("", "A ::= INSTANCE OF B", "ANY"),
    ("", "A ::= B.&C ({D}{@e})", "ANY"),
    ("", "A ::= B {NULL} B {X} ::= SEQUENCE { a X }", "ANY"),
    ("", "A ::= SEQUENCE { a [1] B.&C OPTIONAL, b B {NULL} }", "U16+{a?:1+{:ANY} b:ANY}"),
    ("", "A ::= CHOICE { a NULL, b B.&C }", "ANY"),
    ("", "A ::= CHOICE {}", "<>"),
    ("", "A ::= SEQUENCE {}", "U16+{}"),
];

#[test]
fn shapes(rt: HostRuntime) -> Result<(), AllocError> {
    for (tagging, types, shape) in SHAPES {
        let text = format!(in rt.alloc(); "M DEFINITIONS {tagging} ::= BEGIN {types} END")?;
        let found = text_of(rt.alloc(), text.as_str(), "A", 3)?;
        assert_eq!(rt; found.as_str(), *shape, "{types}");
    }
    Ok(())
}
