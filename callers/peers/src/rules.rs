//! The rules by which the readers differ. Numbers are clauses of X.690; "DIFFERENCES" is a line of
//! docs/DIFFERENCES.md that says the same of der-parser 10; what is neither is a habit of der-parser 6.
use crate::case::{framing, is_other_end, long_form, Case};
use crate::readers::{other, Outcome};
use dumarewhi::Reason;

/// A rule by which the readers differ at one element.
pub struct Rule {
    pub name: &'static str,
    /// The clause or document that has it.
    pub source: &'static str,
    /// Whether it is about a header alone.
    pub is_of_header: bool,
    /// Whether it decides at the element itself.
    pub decides: fn(&Case<'_>) -> bool,
    /// Octets at which it decides, by DER (true) or by BER.
    pub examples: &'static [(bool, &'static str)],
}

pub const RULES: &[Rule] = &[
    Rule {
        name: "a tag number is cut short",
        source: "DIFFERENCES: Incomplete(1), and not an error",
        is_of_header: true,
        decides: |case| {
            case.own == Outcome::CutShort
                && case.other == Outcome::Refused
                && matches!(long_form(case.input), Some((_, false)))
        },
        examples: &[
            (true, "9f"),
            (true, "9f a2"),
            (false, "bf 81"),
            (false, "30 80 1f"),
        ],
    },
    Rule {
        name: "a tag number isn't in its one form",
        source: "8.1.2.4.1, 8.1.2.4.2 c; DIFFERENCES: InvalidTag",
        is_of_header: true,
        decides: |case| {
            let is_small = matches!(long_form(case.input), Some((0..=30, true)));
            let is_padded = matches!(case.input, [first, 0x80, ..] if first & 0x1f == 0x1f);
            case.reason == Some(Reason::INVALID_TAG) && (is_small || is_padded)
        },
        examples: &[(true, "1f 1e 00"), (true, "9f 80 22 00"), (false, "5f 02")],
    },
    Rule {
        name: "a tag number above 2^32-1",
        source: "its first 32 bits are dropped by der-parser 6",
        is_of_header: true,
        decides: |case| {
            case.reason == Some(Reason::INVALID_TAG)
                && long_form(case.input).map_or(false, |(number, _)| number > u32::MAX.into())
        },
        examples: &[(true, "9f 90 80 80 80 00 00"), (false, "1f ff ff ff ff 7f 01 00")],
    },
    Rule {
        name: "a length of 127, or more than its octets need",
        source: "10.1; DIFFERENCES: LengthNotMinimal",
        is_of_header: false,
        decides: |case| {
            case.reason == Some(Reason::LENGTH_NOT_MINIMAL)
                && case.breaks_der()
                && matches!(case.definite(), Some(127..))
        },
        examples: &[
            (true, "04 81 7f"),
            (true, "04 82 00 80"),
            (true, "04 83 00 00 ff"),
        ],
    },
    Rule {
        name: "a length above 2^32-1",
        source: "more octets may complete it; refused by der-parser 6",
        is_of_header: false,
        decides: |case| {
            case.own == Outcome::CutShort
                && case.other == Outcome::Refused
                && matches!(case.definite(), Some(length) if length > u32::MAX.into())
        },
        examples: &[
            (false, "04 85 01 00 00 00 00"),
            (true, "04 85 01 00 00 00 00"),
            (false, "80 88 ff ff ff ff ff ff ff ff"),
        ],
    },
    Rule {
        name: "a constructed BOOLEAN",
        source: "8.2.1; DIFFERENCES: Constructed",
        is_of_header: false,
        decides: |case| case.is_read_by_other_alone(&[1]) && case.is_constructed(),
        examples: &[(true, "21 01 ff"), (false, "21 01 00")],
    },
    Rule {
        name: "a VisibleString with a delete",
        source: "8.23.5: its characters are 20 to 7e",
        is_of_header: false,
        decides: |case| {
            case.reason == Some(Reason::CHARACTER_OUTSIDE)
                && case.is_read_by_other_alone(&[26])
                && case.content().contains(&0x7f)
        },
        examples: &[(true, "1a 01 7f"), (false, "1a 02 20 7f")],
    },
    Rule {
        name: "a text that is no time",
        source: "8.25, X.680 46 and 47; DIFFERENCES: own fields",
        is_of_header: false,
        decides: |case| {
            case.is_read_by_other_alone(&[23, 24])
                && matches!(case.reason, Some(Reason::TIME_TEXT))
                && !case.is_constructed()
        },
        examples: &[
            (true, "17 01 5a"),
            (false, "18 02 31 39"),
            (true, "17 0d 32 30 31 33 30 31 30 30 30 30 30 30 5a"),
        ],
    },
    Rule {
        name: "end-of-contents octets, or constructed",
        source: "8.1.5: they are no element",
        is_of_header: false,
        decides: |case| case.is_read_by_other_alone(&[0]),
        examples: &[(true, "20 00"), (true, "00 00"), (false, "00 00")],
    },
    Rule {
        name: "a constructed string by BER",
        source: "8.7.1, 8.23.6: its parts are elements; an OCTET STRING alone is kept by der-parser 10",
        is_of_header: false,
        decides: |case| {
            !case.rules.is_der()
                && case.is_read_by_own_alone(&[3, 4, 7, 12, 18, 19, 20, 21, 22, 25, 26, 27, 28, 30])
                && case.is_constructed()
        },
        examples: &[(false, "24 03 04 01 61"), (false, "24 80 04 01 61 00 00")],
    },
    Rule {
        name: "an ENUMERATED of more than eight octets",
        source: "8.4: any number",
        is_of_header: false,
        decides: |case| case.is_read_by_own_alone(&[10]) && case.content().len() > 8,
        examples: &[
            (true, "0a 09 00 ff ff ff ff ff ff ff ff"),
            (false, "0a 09 01 00 00 00 00 00 00 00 00"),
        ],
    },
    Rule {
        name: "an INTEGER or ENUMERATED with needless octets",
        source: "8.3.2; by BER der-parser 10 reads it too",
        is_of_header: false,
        decides: |case| {
            case.reason == Some(Reason::NUMBER_PADDED)
                && case.is_read_by_other_alone(&[2, 10])
                && matches!(case.content(), [0, 0..=0x7f, ..] | [0xff, 0x80..=0xff, ..])
        },
        examples: &[
            (true, "02 02 ff 80"),
            (true, "0a 02 00 05"),
            (false, "02 02 00 05"),
        ],
    },
    Rule {
        name: "an INTEGER of no octets by BER",
        source: "8.3.1; der-parser 10 reads it too",
        is_of_header: false,
        decides: |case| case.is_read_by_other_alone(&[2, 10]) && case.content().is_empty(),
        examples: &[(false, "02 00")],
    },
    Rule {
        name: "an invalid number of unused bits",
        source: "8.6.2.2, 8.6.2.3",
        is_of_header: false,
        decides: |case| {
            case.is_read_by_other_alone(&[3]) && matches!(case.content(), [8..=0xff, ..] | [1..=0xff])
        },
        examples: &[(true, "03 01 03"), (false, "03 01 03"), (false, "03 02 08 00")],
    },
    Rule {
        name: "an identifier with a padded arc",
        source: "8.19.2, 8.20.2; der-parser 10 reads it too",
        is_of_header: false,
        decides: |case| case.reason == Some(Reason::ARC_PADDED) && case.is_read_by_other_alone(&[6, 13]),
        examples: &[(true, "06 03 80 55 04"), (false, "0d 02 80 01")],
    },
    Rule {
        name: "a REAL that is none",
        source: "8.5, 11.3; der-parser 10 keeps its octets",
        is_of_header: false,
        decides: |case| case.is_read_by_other_alone(&[9]),
        examples: &[(true, "09 01 44"), (false, "09 01 44")],
    },
    Rule {
        name: "a type that is always constructed",
        source: "8.17, 8.18, 8.24; der-parser 10 keeps its octets",
        is_of_header: false,
        decides: |case| case.is_read_by_other_alone(&[8, 11, 29]) && !case.is_constructed(),
        examples: &[(true, "08 00"), (false, "0b 00"), (true, "1d 01 00")],
    },
    Rule {
        name: "a BMPString or UniversalString of a wrong size",
        source: "8.23.7, 8.23.9: four or two octets a character",
        is_of_header: false,
        decides: |case| {
            let size = case.content().len();
            (case.is_read_by_other_alone(&[30]) && size % 2 != 0)
                || (case.is_read_by_other_alone(&[28]) && size % 4 != 0)
        },
        examples: &[(true, "1e 01 41"), (false, "1e 01 41"), (true, "1c 03 00 00 00")],
    },
    Rule {
        name: "a constructed time by DER",
        source: "10.2",
        is_of_header: false,
        decides: |case| {
            case.rules.is_der() && case.is_read_by_other_alone(&[23, 24]) && case.is_constructed()
        },
        examples: &[(true, "38 01 5a")],
    },
    Rule {
        name: "a time that isn't in its form for DER",
        source: "11.7, 11.8; DIFFERENCES: Z, seconds, a fraction without last zeros",
        is_of_header: false,
        decides: |case| {
            case.is_read_by_other_alone(&[23, 24])
                && matches!(
                    case.reason,
                    Some(Reason::TIME_WITHOUT_SECONDS)
                        | Some(Reason::TIME_NOT_IN_Z)
                        | Some(Reason::TIME_COMMA)
                        | Some(Reason::TIME_LAST_ZERO)
                )
        },
        examples: &[
            (true, "17 0b 32 30 30 31 30 31 30 30 30 30 5a"),
            (true, "18 11 32 30 32 30 30 31 30 31 30 30 30 30 30 30 2e 30 5a"),
        ],
    },
    Rule {
        name: "what is inside an element of another class, or a string",
        source: "8.1.4: elements; der-parser keeps octets",
        is_of_header: false,
        decides: |case| {
            case.is_constructed() && !case.is_list() && case.own == Outcome::Refused && case.other.is_read()
        },
        examples: &[
            (true, "a0 01 05"),
            (true, "a0 03 01 01 7f"),
            (false, "a0 03 02 02 05"),
            (false, "37 01 5a"),
        ],
    },
    Rule {
        name: "a fault in what is cut short",
        source: "no clause: no octets that follow mend it",
        is_of_header: false,
        decides: |case| case.own == Outcome::Refused && case.other == Outcome::CutShort,
        examples: &[(true, "30 0a 01 01 7f"), (false, "30 0a 02 00"), (true, "03 00")],
    },
    Rule {
        name: "levels of indefinite length",
        source: "no clause: der-parser 6 frames as many as the depth has left",
        is_of_header: false,
        decides: |case| {
            case.is_indefinite()
                && case.own == other(case.rules, case.input, 50)
                && case.other == Outcome::Refused
        },
        examples: &[(false, "30 81 c4 a0.80*49 00.00*49")],
    },
    Rule {
        name: OTHER_END,
        source: "8.1.5; DIFFERENCES: the octets 00 00",
        is_of_header: false,
        decides: |case| {
            case.is_indefinite() && !case.is_list() && framing(case.input).into_iter().any(is_other_end)
        },
        examples: &[
            (false, "a0 80 80 00 00 00"),
            (false, "30 80 20 00 00 00"),
            (false, "bd 80 05 00 60 00"),
        ],
    },
    Rule {
        name: FRAMING_FIRST,
        source: "no clause: a cut input is Incomplete, whatever is in it",
        is_of_header: false,
        decides: |case| {
            case.is_indefinite()
                && case.header.map_or(false, |it| it.is_universal() && !it.is_list())
                && case.own == Outcome::CutShort
                && case.other == Outcome::Refused
        },
        examples: &[(false, "24 80 04 01 61")],
    },
    Rule {
        name: LISTS_END,
        source: "8.9.2, 8.11.2; der-parser 6 drops the rest silently",
        is_of_header: false,
        decides: |_| false,
        examples: &[
            (true, "30 03 01 02 ff"),
            (false, "31 04 05 00 02 05"),
            (true, "30 02 02 05"),
        ],
    },
    Rule {
        name: ITEMS_BY_BER,
        source: "10, 11; DIFFERENCES: by DER at every depth",
        is_of_header: false,
        decides: |_| false,
        examples: &[
            (true, "30 03 01 01 7f"),
            (true, "30 04 31 80 00 00"),
            (true, "31 07 09 05 8c 05 7f 01 07"),
        ],
    },
];

/// The names of rules that decide at what is around elements.
pub const OTHER_END: &str = "an end marker with another identifier";
pub const FRAMING_FIRST: &str = "the framing before what it frames";
pub const LISTS_END: &str = "a list ends before an element that isn't read";
pub const ITEMS_BY_BER: &str = "elements of a list are read by BER in DER";

pub fn rule_named(name: &str) -> Option<usize> {
    RULES.iter().position(|rule| rule.name == name)
}
