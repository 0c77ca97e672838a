//! The readers of contents, without their header or behind one of the caller's.
use crate::elements::said::{Said, read_header, read_said};
use der_parser::ber::{
    BerObjectContent, Class, Header, Tag, ber_read_element_content_as, parse_ber_content,
    parse_ber_content2,
};
use der_parser::der::{
    der_read_element_content, der_read_element_content_as, parse_der_content, parse_der_content2,
};
use der_parser::error::BerResult;
use test_support::calls::has_same_parts;
use test_support::octets::octets;
use test_support::words::{answer_of, push_answer, push_header};
use std::alloc::{AllocError, Global};
use test_tables::fault::Fault;
use test_tables::octets::push_word;

/// A reader of contents.
#[derive(Clone, Copy)]
pub enum ContentReader {
    BerElement,
    BerBehind,
    BerBehindValue,
    DerElement,
    DerBehind,
    DerBehindValue,
    /// The reader of an object behind its header.
    DerObject,
}

impl ContentReader {
    /// The reader of this name.
    pub fn named(name: &str) -> Option<ContentReader> {
        match name {
            "ber_read_element_content_as" => Some(ContentReader::BerElement),
            "parse_ber_content" => Some(ContentReader::BerBehind),
            "parse_ber_content2" => Some(ContentReader::BerBehindValue),
            "der_read_element_content_as" => Some(ContentReader::DerElement),
            "parse_der_content" => Some(ContentReader::DerBehind),
            "parse_der_content2" => Some(ContentReader::DerBehindValue),
            "der_read_element_content" => Some(ContentReader::DerObject),
            _ => None,
        }
    }

    /// What the reader answers.
    pub fn answer(self, alloc: Global, input: &str) -> Result<String, Fault> {
        if let ContentReader::DerObject = self {
            let (header, text) = read_header(input).ok_or(Fault::Input)?;
            let input = octets(alloc, text)?;
            let given = der_read_element_content(alloc, &input, header);
            return Ok(answer_behind(alloc, &header, given)?);
        }
        let (said, text) = read_said(input).ok_or(Fault::Input)?;
        let input = octets(alloc, text)?;
        Ok(answer_of(alloc, self.read(alloc, said, &input))?)
    }

    /// What the reader answers. The header has another class and tag number than the content.
    fn read<'a>(
        self,
        alloc: Global,
        said: Said,
        input: &'a [u8],
    ) -> BerResult<'a, BerObjectContent<'a>> {
        let Said {
            constructed,
            tag,
            length,
            depth,
        } = said;
        let header = Header::new(Class::ContextSpecific, constructed, Tag(7), length);
        match self {
            ContentReader::BerElement => {
                ber_read_element_content_as(alloc, input, tag, length, constructed, depth)
            }
            ContentReader::BerBehind => parse_ber_content(alloc, tag).parse(input, &header, depth),
            ContentReader::BerBehindValue => {
                parse_ber_content2(alloc, tag).parse(input, header, depth)
            }
            ContentReader::DerBehind => parse_der_content(alloc, tag).parse(input, &header, depth),
            ContentReader::DerBehindValue => {
                parse_der_content2(alloc, tag).parse(input, header, depth)
            }
            ContentReader::DerElement | ContentReader::DerObject => {
                der_read_element_content_as(alloc, input, tag, length, constructed, depth)
            }
        }
    }
}

/// What is answered behind a header, and the object's header if it is another one.
fn answer_behind(
    alloc: Global,
    header: &Header<'_>,
    given: BerResult<'_>,
) -> Result<String, AllocError> {
    let mut text = String::new(alloc);
    push_answer(&mut text, &given)?;
    if let Ok((_, object)) = &given {
        push_other_header(&mut text, header, &object.header)?;
    }
    Ok(text)
}

fn push_other_header(
    text: &mut String,
    header: &Header<'_>,
    of_object: &Header<'_>,
) -> Result<(), AllocError> {
    if has_same_parts(header, of_object) {
        return Ok(());
    }
    push_word(text, "behind")?;
    push_header(text, of_object)
}
