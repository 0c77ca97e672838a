//! Input that comes in pieces.
use crate::element::Rules;
use crate::error::{ErrorKind, Result};
use crate::{Error, Tree};
use alloc::vec::Vec;

/// Takes input in pieces, as from a socket, and returns each element as soon as it is complete.
///
/// [`next_tree`](Buffer::next_tree) and [`next_octets`](Buffer::next_octets) return `Ok(None)` if more input is needed,
/// and an error only if more input doesn't help. Offsets of errors count from the start of the element. More than 49
/// nested indefinite lengths are an error.
///
/// ```
/// use dumarewhi::{Buffer, Rules};
///
/// let mut buffer = Buffer::new(Rules::DER);
/// let mut numbers = Vec::new();
/// for piece in [&[0x02][..], &[0x01, 0x05, 0x02], &[0x01, 0x07]] {
///     buffer.feed(piece);
///     while let Some(tree) = buffer.next_tree()? {
///         numbers.push(tree.root().as_u64()?);
///     }
/// }
/// buffer.finish()?; // an error if an element is cut short
/// assert_eq!(numbers, [5, 7]);
/// # Ok::<(), dumarewhi::Error>(())
/// ```
#[derive(Clone, Debug)]
pub struct Buffer {
    rules: Rules,
    octets: Vec<u8>,
    /// Where the next element begins.
    start: usize,
    /// How many octets have to be there from `start` on before it is worth to look again.
    wanted: usize,
    limit: usize,
    /// How many octets were dropped before those that are kept.
    dropped: u64,
}

impl Buffer {
    /// The default limit of an element's octets, 16 MiB. [`with_limit`](Buffer::with_limit) changes it.
    pub const DEFAULT_LIMIT: usize = 1 << 24;

    /// An empty buffer of elements by these rules.
    pub fn new(rules: Rules) -> Buffer {
        Buffer {
            rules,
            octets: Vec::new(),
            start: 0,
            wanted: 1,
            limit: Buffer::DEFAULT_LIMIT,
            dropped: 0,
        }
    }

    /// Sets the limit of an element's octets. A longer element is an error as soon as its header shows it.
    ///
    /// ```
    /// use dumarewhi::{Buffer, ErrorKind, Rules};
    ///
    /// let mut buffer = Buffer::new(Rules::DER).with_limit(1500);
    /// buffer.feed(&[0x30, 0x82, 0x7f, 0xff]);
    /// let error = buffer.next_tree().unwrap_err();
    /// assert_eq!(error.kind(), ErrorKind::TooLong { limit: 1500 });
    /// ```
    pub fn with_limit(self, limit: usize) -> Buffer {
        Buffer { limit, ..self }
    }

    /// Appends a piece of input.
    pub fn feed(&mut self, piece: &[u8]) {
        if self.start > 0 {
            self.octets.drain(..self.start);
            self.dropped = self.position();
            self.start = 0;
        }
        self.octets.extend_from_slice(piece);
    }

    /// Reads the next element, if it is complete. After an error inside an element the next call continues behind it.
    /// After an error of a header every call returns that error: the next element can't be found.
    pub fn next_tree(&mut self) -> Result<Option<Tree<'_>>> {
        let rules = self.rules;
        match self.next_octets()? {
            Some(octets) => rules.parse(octets).map(|(_, tree)| Some(tree)),
            None => Ok(None),
        }
    }

    /// Takes the octets of the next element, if it is complete. Check its content with a [`Reader`](crate::Reader) or
    /// [`check_der`](crate::check_der).
    pub fn next_octets(&mut self) -> Result<Option<&[u8]>> {
        if self.pending().len() < self.wanted {
            return Ok(None);
        }
        match self.first_length() {
            Ok(length) => {
                let start = self.start;
                self.start = start.saturating_add(length);
                self.wanted = 1;
                Ok(Some(self.octets.get(start..self.start).unwrap_or_default()))
            }
            Err(error) => match error.kind() {
                ErrorKind::Incomplete { missing } => {
                    self.wanted = self.pending().len().saturating_add(missing.max(1));
                    Ok(None)
                }
                _ => Err(error),
            },
        }
    }

    /// The length of the next element, within the limit.
    fn first_length(&self) -> Result<usize> {
        let pending = self.pending();
        let found = self.rules.first_length(pending);
        let least = match &found {
            Ok(length) => *length,
            Err(error) => error
                .missing()
                .map_or(0, |missing| pending.len().saturating_add(missing)),
        };
        if least > self.limit {
            return Err(Error::new(ErrorKind::TooLong { limit: self.limit }, 0));
        }
        found
    }

    /// The octets that were fed and not taken yet.
    pub fn pending(&self) -> &[u8] {
        self.octets.get(self.start..).unwrap_or_default()
    }

    /// The number of octets taken so far: the offset of the next element in the whole input.
    pub fn position(&self) -> u64 {
        self.dropped.saturating_add(self.start as u64)
    }

    /// The least number of octets that the next element still needs, as far as the input shows. 0 if it may be
    /// complete.
    ///
    /// ```
    /// use dumarewhi::{Buffer, Rules};
    ///
    /// let mut buffer = Buffer::new(Rules::DER);
    /// buffer.feed(&[0x04, 0x03, b'a']);
    /// assert!(buffer.next_tree()?.is_none());
    /// assert_eq!(buffer.missing(), 2);
    /// # Ok::<(), dumarewhi::Error>(())
    /// ```
    pub fn missing(&self) -> usize {
        self.wanted.saturating_sub(self.pending().len())
    }

    /// Call this at the end of the input: an error if an element is cut short.
    pub fn finish(&self) -> Result<()> {
        let pending = self.pending();
        if pending.is_empty() {
            return Ok(());
        }
        match self.first_length() {
            Ok(_) => Err(Error::new(ErrorKind::TrailingData, 0)),
            Err(error) => Err(error),
        }
    }
}
