//! An element, and what both readers return on it.
use crate::header::{Header, Length};
use crate::readers::{other, own, Outcome};
use dumarewhi::{Reason, Rules};

/// An element by its octets, with what follows it, and what both readers return.
pub struct Case<'a> {
    pub rules: Rules,
    pub input: &'a [u8],
    pub depth: usize,
    pub header: Option<Header>,
    pub own: Outcome,
    pub reason: Option<Reason>,
    /// Where the element begins that shows the reason.
    place: usize,
    pub other: Outcome,
}

impl<'a> Case<'a> {
    pub fn new(rules: Rules, input: &'a [u8], depth: usize) -> Case<'a> {
        let (own, refusal) = own(rules, input, depth);
        Case {
            rules,
            input,
            depth,
            header: Header::read(input),
            own,
            reason: refusal.map(|it| it.0),
            place: refusal.map_or(0, |it| it.1),
            other: other(rules, input, depth),
        }
    }

    /// Whether it is refused by a rule of DER beyond BER, which the element at the place breaks.
    pub fn breaks_der(&self) -> bool {
        let element = self.input.get(self.place..).unwrap_or(&[]);
        self.rules.is_der() && self.reason.map_or(false, |reason| breaks(reason, element))
    }

    /// Whether a list that this element is in is refused for the same reason, or because the element, or its end
    /// marker, is past the list's end.
    pub fn refuses(&self, list: &Case<'_>) -> bool {
        let is_past = self
            .header
            .map_or(true, |header| header.content(self.input).is_none());
        match list.reason {
            Some(Reason::OVERRUN) | Some(Reason::NO_END_MARKER) if is_past => true,
            reason => reason.is_some() && reason == self.reason,
        }
    }

    pub fn content(&self) -> &'a [u8] {
        self.header
            .and_then(|header| header.content(self.input))
            .unwrap_or(&[])
    }

    pub fn is_universal(&self, numbers: &[u128]) -> bool {
        self.header
            .map_or(false, |it| it.is_universal() && numbers.contains(&it.number))
    }

    pub fn is_list(&self) -> bool {
        self.header.map_or(false, |it| it.is_list())
    }

    pub fn is_constructed(&self) -> bool {
        self.header.map_or(false, |it| it.constructed)
    }

    pub fn is_indefinite(&self) -> bool {
        self.header.map_or(false, |it| it.length == Length::Indefinite)
    }

    /// A length that is definite.
    pub fn definite(&self) -> Option<u128> {
        match self.header?.length {
            Length::Definite(length) => Some(length),
            _ => None,
        }
    }

    pub fn is_read_by_own_alone(&self, numbers: &[u128]) -> bool {
        self.is_universal(numbers) && self.own.is_read() && self.other == Outcome::Refused
    }

    pub fn is_read_by_other_alone(&self, numbers: &[u128]) -> bool {
        self.is_universal(numbers) && self.own == Outcome::Refused && self.other.is_read()
    }
}

/// Whether an element breaks the rule of DER beyond BER that a reason names, by its octets.
fn breaks(reason: Reason, element: &[u8]) -> bool {
    let header = match Header::read(element) {
        Some(header) => header,
        None => return false,
    };
    let content = header.content(element).unwrap_or(&[]);
    let is = |numbers: &[u128]| header.is_universal() && numbers.contains(&header.number);
    match reason {
        Reason::INDEFINITE_LENGTH => header.length == Length::Indefinite,
        Reason::LENGTH_NOT_MINIMAL => header.is_longer_than_needed(),
        Reason::CONSTRUCTED => header.is_universal() && header.constructed && !header.is_list(),
        Reason::BOOLEAN_VALUE => is(&[1]) && content != [0] && content != [0xff],
        Reason::TIME_NOT_IN_Z => is(&[23, 24]) && !content.ends_with(b"Z"),
        Reason::TIME_WITHOUT_SECONDS => {
            (is(&[23]) && content.len() < 13) || (is(&[24]) && content.len() < 15)
        }
        Reason::TIME_COMMA => is(&[24]) && content.contains(&b','),
        Reason::TIME_LAST_ZERO => is(&[24]) && content.ends_with(b"0Z"),
        Reason::UNUSED_BIT_IS_SET => is(&[3]) && has_unused_bits(content),
        _ => is(&[9]) && breaks_real(reason, content),
    }
}

/// Whether the content of a REAL breaks the rule of DER that a reason names (11.3).
fn breaks_real(reason: Reason, content: &[u8]) -> bool {
    let (first, rest) = match content.split_first() {
        Some(parts) => parts,
        None => return false,
    };
    let exponent = match first & 3 {
        3 => rest.first().map_or(0, |size| 1 + usize::from(*size)),
        size => 1 + usize::from(size),
    };
    let mantissa = rest.get(exponent..).unwrap_or(&[]);
    match reason {
        Reason::REAL_BASE_OR_SCALE => first & 0x80 != 0 && first & 0x3c != 0,
        Reason::REAL_EXPONENT_NOT_FEWEST => first & 0x80 != 0 && first & 3 != 0,
        Reason::REAL_MANTISSA_NOT_FEWEST => {
            first & 0x80 != 0
                && (mantissa.first() == Some(&0) || mantissa.last().map_or(false, |it| it % 2 == 0))
        }
        Reason::REAL_DECIMAL_NOT_STRICT => first & 0xc0 == 0,
        _ => false,
    }
}

/// Whether a bit is set that the first octet says is unused.
fn has_unused_bits(content: &[u8]) -> bool {
    match content {
        [_] | [] => false,
        [unused, .., last] => u32::from(*last).trailing_zeros() < u32::from(*unused),
    }
}

/// The number after an identifier octet of the long form, as far as it is there, and whether it ends.
pub fn long_form(input: &[u8]) -> Option<(u128, bool)> {
    let (first, octets) = input.split_first()?;
    if first & 0x1f != 0x1f {
        return None;
    }
    let end = octets.iter().position(|octet| *octet < 0x80);
    let octets = &octets[..end.map_or(octets.len(), |end| end + 1)];
    let number = octets.iter().fold(0u128, |number, octet| {
        number.saturating_mul(128) | u128::from(octet & 0x7f)
    });
    Some((number, end.is_some()))
}

/// What der-parser 6 takes as an end marker, and X.690 8.1.5 doesn't.
pub fn is_other_end(input: &[u8]) -> bool {
    let header = Header::read(input);
    !input.starts_with(&[0, 0])
        && header.map_or(false, |it| it.number == 0 && it.length == Length::Definite(0))
}

/// The input at each header that is looked at to find the end of an indefinite length.
pub fn framing(input: &[u8]) -> Vec<&[u8]> {
    let mut found = vec![input];
    let (mut rest, mut levels) = (input, 0usize);
    while let Some(header) = Header::read(rest) {
        if rest.starts_with(&[0, 0]) {
            levels = levels.saturating_sub(1);
        }
        rest = match (header.length, header.content(rest)) {
            (Length::Indefinite, _) => {
                levels += 1;
                &rest[header.size..]
            }
            (_, Some(content)) => &rest[header.size + content.len()..],
            _ => break,
        };
        if levels == 0 {
            break;
        }
        found.push(rest);
    }
    found
}
