//! Numbers and bits.
use crate::error::Reason;
use crate::ffi::{self, BitsFields, Fields, Octets};
use core::cmp::Ordering;
use core::iter::FusedIterator;

/// An INTEGER or an ENUMERATED of any size: its content octets, in two's complement (X.690 8.3). It sorts by number.
///
/// ```
/// use dumarewhi::{Any, Integer};
///
/// let number = Any::from_der(&[0x02, 0x02, 0x01, 0x00])?.as_integer()?;
/// assert_eq!(number.to_u64(), Ok(256));
/// assert_eq!(number.as_bytes(), [0x01, 0x00]);
/// assert!(number > Integer::from_content(&[0x80]).unwrap());
/// # Ok::<(), dumarewhi::Error>(())
/// ```
#[derive(Clone, Copy, Debug, PartialEq, Eq, Hash)]
pub struct Integer<'a>(&'a [u8]);

impl<'a> Integer<'a> {
    /// A number from content octets. An error if they are padded (X.690 8.3.2).
    pub fn from_content(content: &'a [u8]) -> Result<Integer<'a>, Reason> {
        match Fields::new(&mut []).put_integer(content) {
            0 => Ok(Integer(content)),
            number => Err(Reason(number)),
        }
    }

    /// Whether it is below 0.
    pub fn is_negative(self) -> bool {
        self.0.first().map_or(false, |first| first & 0x80 != 0)
    }

    /// The content octets: two's complement, the highest octet first.
    pub fn as_bytes(self) -> &'a [u8] {
        self.0
    }

    /// The number, if it is from 0 to 2^64-1.
    pub fn to_u64(self) -> Result<u64, Reason> {
        ffi::read_u64(self.0).map_err(Reason)
    }

    /// The number, if it is from -2^63 to 2^63-1.
    pub fn to_i64(self) -> Result<i64, Reason> {
        ffi::read_i64(self.0).map_err(Reason)
    }
}

impl<'a> From<Octets<'a>> for Integer<'a> {
    fn from(content: Octets<'a>) -> Integer<'a> {
        Integer(content.get())
    }
}

forward!(TryFrom by from_content for Integer, Reason);
forward!(AsRef by as_bytes for Integer<'_>);
forward!(PartialOrd for Integer<'_>);

/// Since the octets are the fewest, more of them are further from 0.
impl Ord for Integer<'_> {
    fn cmp(&self, other: &Self) -> Ordering {
        let (own, others) = (self.0, other.0);
        match (self.is_negative(), other.is_negative()) {
            (false, false) => (own.len(), own).cmp(&(others.len(), others)),
            (true, true) => others.len().cmp(&own.len()).then_with(|| own.cmp(others)),
            (own, others) => others.cmp(&own),
        }
    }
}

macro_rules! numbers {
    ($($type:ty: $read:ident,)*) => {
        $(/// The number, if the type has it.
        impl TryFrom<Integer<'_>> for $type {
            type Error = Reason;

            fn try_from(number: Integer<'_>) -> Result<$type, Reason> {
                number.$read().and_then(|it| <$type>::try_from(it).map_err(|_| Reason::INTEGER_TOO_LARGE))
            }
        })*
    };
}

numbers! {
    u8: to_u64,
    u16: to_u64,
    u32: to_u64,
    u64: to_u64,
    usize: to_u64,
    i8: to_i64,
    i16: to_i64,
    i32: to_i64,
    i64: to_i64,
    isize: to_i64,
}

/// A BIT STRING (X.690 8.6).
///
/// ```
/// use dumarewhi::Any;
///
/// // The bits 0110 1110 0101 1101 11, with six unused bits (X.690 8.6.4.2 has a longer one).
/// let bits = Any::from_der(&[0x03, 0x04, 0x06, 0x6e, 0x5d, 0xc0])?.as_bit_string()?;
/// assert_eq!((bits.unused_bits(), bits.len()), (6, 18));
/// assert_eq!(bits.raw_bytes(), [0x6e, 0x5d, 0xc0]);
/// assert_eq!(bits.as_bytes(), None);
/// assert_eq!((bits.bit(0), bits.bit(1), bits.bit(18)), (Some(false), Some(true), None));
/// # Ok::<(), dumarewhi::Error>(())
/// ```
#[derive(Clone, Copy, Debug, PartialEq, Eq, Hash)]
pub struct BitString<'a> {
    unused: u8,
    bytes: &'a [u8],
}

impl<'a> BitString<'a> {
    /// A BIT STRING from octets with 0 to 7 unused bits at the end. An error if there are more, or no octet has them
    /// (X.690 8.6.2).
    ///
    /// ```
    /// use dumarewhi::BitString;
    ///
    /// assert_eq!(BitString::new(4, &[0xf0]).unwrap().len(), 4);
    /// assert!(BitString::new(8, &[0]).is_err());
    /// ```
    pub fn new(unused: u8, bytes: &'a [u8]) -> Result<BitString<'a>, Reason> {
        match unused {
            8.. => Err(Reason::UNUSED_BITS_ABOVE_SEVEN),
            1.. if bytes.is_empty() => Err(Reason::UNUSED_BITS_OF_NONE),
            _ => Ok(BitString { unused, bytes }),
        }
    }

    /// The number of unused bits in the last octet, 0 to 7.
    pub fn unused_bits(self) -> u8 {
        self.unused
    }

    /// The octets that have the bits.
    pub fn raw_bytes(self) -> &'a [u8] {
        self.bytes
    }

    /// The octets, if no bit is unused.
    pub fn as_bytes(self) -> Option<&'a [u8]> {
        match self.unused {
            0 => Some(self.bytes),
            _ => None,
        }
    }

    /// The number of bits.
    pub fn len(self) -> usize {
        let bits = self.bytes.len().saturating_mul(8);
        bits.saturating_sub(self.unused.into())
    }

    /// Whether there are no bits.
    pub fn is_empty(self) -> bool {
        self.len() == 0
    }

    /// One bit. Bit 0 is the highest of the first octet (X.680 22.2).
    pub fn bit(self, index: usize) -> Option<bool> {
        if index >= self.len() {
            return None;
        }
        let octet = self.bytes.get(index / 8)?;
        Some(octet.wrapping_shl((index % 8) as u32) & 0x80 != 0)
    }

    /// The bits in order.
    ///
    /// ```
    /// use dumarewhi::BitString;
    ///
    /// let bits = BitString::new(5, &[0xa0]).unwrap();
    /// assert!(bits.iter().eq([true, false, true]));
    /// ```
    pub fn iter(self) -> Bits<'a> {
        Bits { bits: self, index: 0 }
    }
}

impl<'a> From<BitsFields<'a>> for BitString<'a> {
    fn from(fields: BitsFields<'a>) -> BitString<'a> {
        BitString {
            unused: fields.unused as u8,
            bytes: fields.octets.get(),
        }
    }
}

impl<'a> From<BitString<'a>> for BitsFields<'a> {
    fn from(bits: BitString<'a>) -> BitsFields<'a> {
        BitsFields {
            octets: Octets::of(bits.bytes),
            unused: bits.unused.into(),
            is_present: 1,
        }
    }
}

impl<'a> From<BitsFields<'a>> for Option<BitString<'a>> {
    fn from(fields: BitsFields<'a>) -> Option<BitString<'a>> {
        (fields.is_present != 0).then(|| fields.into())
    }
}

forward!(IntoIterator by iter for ['a] BitString<'a> as Bits<'a>);

/// The bits of a [`BitString`].
#[derive(Clone, Debug)]
pub struct Bits<'a> {
    bits: BitString<'a>,
    index: usize,
}

impl Iterator for Bits<'_> {
    type Item = bool;

    fn next(&mut self) -> Option<bool> {
        let bit = self.bits.bit(self.index)?;
        self.index = self.index.saturating_add(1);
        Some(bit)
    }

    fn size_hint(&self) -> (usize, Option<usize>) {
        let left = self.bits.len().saturating_sub(self.index);
        (left, Some(left))
    }
}

impl ExactSizeIterator for Bits<'_> {}

impl FusedIterator for Bits<'_> {}
