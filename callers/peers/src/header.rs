//! A reader of headers of this test's own: it takes any header of X.690 8.1.2 and 8.1.3, also one that a rule
//! forbids, so that the octets show which rule it breaks.

/// What the length octets say.
#[derive(Clone, Copy, Debug, PartialEq, Eq)]
pub enum Length {
    Definite(u128),
    Indefinite,
    /// The first octet is ff, or the number has more than 16 octets that count.
    Reserved,
}

/// Identifier and length octets.
#[derive(Clone, Copy, Debug)]
pub struct Header {
    pub class: u8,
    pub constructed: bool,
    pub number: u128,
    /// How many octets the identifier has.
    pub identifier: usize,
    pub length: Length,
    /// How many octets the header has.
    pub size: usize,
}

/// The universal numbers of SEQUENCE and SET.
pub const LISTS: [u128; 2] = [16, 17];

impl Header {
    /// The header that the input begins with, if the input has all of it.
    pub fn read(input: &[u8]) -> Option<Header> {
        let (&first, after) = input.split_first()?;
        let (number, more) = match first & 0x1f {
            0x1f => long_number(after)?,
            number => (number.into(), 0),
        };
        let identifier = 1 + more;
        let (&octet, after) = input[identifier..].split_first()?;
        let (length, more) = match octet {
            0x80 => (Length::Indefinite, 0),
            0xff => (Length::Reserved, 0),
            0..=0x7f => (Length::Definite(octet.into()), 0),
            _ => {
                let count = usize::from(octet & 0x7f);
                (number_of(after.get(..count)?), count)
            }
        };
        Some(Header {
            class: first >> 6,
            constructed: first & 0x20 != 0,
            number,
            identifier,
            length,
            size: identifier + 1 + more,
        })
    }

    pub fn is_universal(&self) -> bool {
        self.class == 0
    }

    /// Whether fewer length octets have the same length (10.1).
    pub fn is_longer_than_needed(&self) -> bool {
        let fewest = match self.length {
            Length::Definite(length @ 0x80..) => 1 + (128 - length.leading_zeros() as usize + 7) / 8,
            _ => 1,
        };
        self.size - self.identifier > fewest
    }

    /// Whether the readers look for elements in the content.
    pub fn is_list(&self) -> bool {
        self.is_universal() && self.constructed && LISTS.contains(&self.number)
    }

    /// The content octets of a definite length, if the input has all of them.
    pub fn content<'a>(&self, input: &'a [u8]) -> Option<&'a [u8]> {
        match self.length {
            Length::Definite(length) => input[self.size..].get(..usize::try_from(length).ok()?),
            _ => None,
        }
    }
}

/// The number in groups of seven bits, and how many octets it has (8.1.2.4.2).
fn long_number(octets: &[u8]) -> Option<(u128, usize)> {
    let count = 1 + octets.iter().position(|octet| *octet < 0x80)?;
    let number = octets[..count].iter().fold(0u128, |number, octet| {
        number.saturating_mul(128) | u128::from(octet & 0x7f)
    });
    Some((number, count))
}

fn number_of(octets: &[u8]) -> Length {
    let zeros = octets.iter().take_while(|octet| **octet == 0).count();
    let spelled = &octets[zeros..];
    if spelled.len() > 16 {
        return Length::Reserved;
    }
    Length::Definite(
        spelled
            .iter()
            .fold(0, |number, octet| number << 8 | u128::from(*octet)),
    )
}
