//! The readers of headers.
use der_parser::ber::{Header, HeaderCount, ber_header_counted, ber_read_element_header};
use der_parser::der::{der_header_counted, der_read_element_header};
use der_parser::error::BerResult;
use test_support::octets::octets;
use test_support::words::{push_answer, push_number};
use std::alloc::{AllocError, Global};
use test_tables::fault::Fault;
use test_tables::octets::push_word;

/// A reader of headers.
#[derive(Clone, Copy)]
pub enum HeaderReader {
    Ber,
    BerCounted,
    Der,
    DerCounted,
}

impl HeaderReader {
    /// The reader of this name.
    pub fn named(name: &str) -> Option<HeaderReader> {
        match name {
            "ber_read_element_header" => Some(HeaderReader::Ber),
            "ber_header_counted" => Some(HeaderReader::BerCounted),
            "der_read_element_header" => Some(HeaderReader::Der),
            "der_header_counted" => Some(HeaderReader::DerCounted),
            _ => None,
        }
    }

    /// What the reader answers, and how many headers it counts if those aren't as many as it reads.
    pub fn answer(self, alloc: Global, input: &str) -> Result<String, Fault> {
        let input = octets(alloc, input)?;
        Ok(self.answer_on(alloc, &input)?)
    }

    fn answer_on(self, alloc: Global, input: &[u8]) -> Result<String, AllocError> {
        let mut count = HeaderCount::new();
        let given = self.read(input, &mut count);
        let mut text = String::new(alloc);
        push_answer(&mut text, &given)?;
        if count.count() != self.counts() {
            push_word(&mut text, "counted")?;
            push_number(&mut text, count.count())?;
        }
        Ok(text)
    }

    /// What the reader answers, which counts the header if it is one that counts.
    fn read<'a>(self, i: &'a [u8], count: &mut HeaderCount) -> BerResult<'a, Header<'a>> {
        match self {
            HeaderReader::Ber => ber_read_element_header(i),
            HeaderReader::BerCounted => ber_header_counted(i, count),
            HeaderReader::Der => der_read_element_header(i),
            HeaderReader::DerCounted => der_header_counted(i, count),
        }
    }

    /// How much a call raises the count.
    fn counts(self) -> u128 {
        match self {
            HeaderReader::Ber | HeaderReader::Der => 0,
            HeaderReader::BerCounted | HeaderReader::DerCounted => 1,
        }
    }
}
