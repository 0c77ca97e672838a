//! The numbers of contents and objects, and the readers of numbers.
use der_parser::ber::{
    BerObject, BerObjectContent, BitStringObject, parse_ber, parse_ber_i32, parse_ber_i64,
    parse_ber_u32, parse_ber_u64,
};
use der_parser::der::{parse_der_i32, parse_der_i64, parse_der_u32, parse_der_u64};
use der_parser::error::{BerError, BerResult};
use test_support::octets::octets;
use test_support::words::{answer_of, push_number, push_refusal, push_refused, push_rest};
use std::alloc::{AllocError, Global};
use test_tables::fault::Fault;

/// The type of a number that is asked for.
#[derive(Clone, Copy)]
pub enum NumberType {
    I32,
    I64,
    U32,
    U64,
}

/// A call that answers a number.
#[derive(Clone, Copy)]
pub enum NumberCall {
    /// `as_i32 of Integer`: of content octets of an INTEGER.
    OfInteger(NumberType),
    /// `as_u32 of BitString 3`: of the octets of a BIT STRING with so many unused bits.
    OfBits(NumberType, u8),
    /// `as_i32 of parse_ber`: of an object.
    OfObject(NumberType),
    /// `parse_ber_i32`
    ByBer(NumberType),
    /// `parse_der_i32`
    ByDer(NumberType),
}

impl NumberCall {
    /// The call of these words.
    pub fn of_call(call: &str) -> Option<NumberCall> {
        match call.split_once(" of ") {
            Some((name, whose)) => {
                let number_type = NumberType::named(name.strip_prefix("as_")?)?;
                number_type.of(whose)
            }
            None => match call.strip_prefix("parse_ber_") {
                Some(name) => NumberType::named(name).map(NumberCall::ByBer),
                None => NumberType::named(call.strip_prefix("parse_der_")?).map(NumberCall::ByDer),
            },
        }
    }

    /// What the call answers.
    pub fn answer(self, alloc: Global, input: &str) -> Result<String, Fault> {
        let input = octets(alloc, input)?;
        Ok(self.answer_on(alloc, &input)?)
    }

    fn answer_on(self, alloc: Global, input: &[u8]) -> Result<String, AllocError> {
        match self {
            NumberCall::OfInteger(number_type) => {
                text_of(
                    alloc,
                    number_type.of_content(&BerObjectContent::Integer(input)),
                )
            }
            NumberCall::OfBits(number_type, unused) => {
                let bits = BerObjectContent::BitString(unused, BitStringObject { bytes: input });
                text_of(alloc, number_type.of_content(&bits))
            }
            NumberCall::OfObject(number_type) => {
                text_of_object(alloc, number_type, parse_ber(alloc, input))
            }
            NumberCall::ByBer(number_type) => answer_of(alloc, number_type.read_by_ber(input)),
            NumberCall::ByDer(number_type) => answer_of(alloc, number_type.read_by_der(input)),
        }
    }
}

impl NumberType {
    /// The type of this name.
    fn named(name: &str) -> Option<NumberType> {
        match name {
            "i32" => Some(NumberType::I32),
            "i64" => Some(NumberType::I64),
            "u32" => Some(NumberType::U32),
            "u64" => Some(NumberType::U64),
            _ => None,
        }
    }

    /// The call that answers a number of this type of such a content, or of an object.
    fn of(self, whose: &str) -> Option<NumberCall> {
        match whose {
            "Integer" => Some(NumberCall::OfInteger(self)),
            "parse_ber" => Some(NumberCall::OfObject(self)),
            bits => {
                let unused = bits.strip_prefix("BitString ")?.parse().ok()?;
                Some(NumberCall::OfBits(self, unused))
            }
        }
    }

    /// The number of a content.
    fn of_content(self, content: &BerObjectContent<'_>) -> Result<i128, BerError> {
        Ok(match self {
            NumberType::I32 => i128::from(content.as_i32()?),
            NumberType::I64 => i128::from(content.as_i64()?),
            NumberType::U32 => i128::from(content.as_u32()?),
            NumberType::U64 => i128::from(content.as_u64()?),
        })
    }

    /// The number of an object.
    fn of_object(self, object: &BerObject<'_>) -> Result<i128, BerError> {
        Ok(match self {
            NumberType::I32 => i128::from(object.as_i32()?),
            NumberType::I64 => i128::from(object.as_i64()?),
            NumberType::U32 => i128::from(object.as_u32()?),
            NumberType::U64 => i128::from(object.as_u64()?),
        })
    }

    /// What the reader of this type answers by BER.
    fn read_by_ber(self, input: &[u8]) -> BerResult<'_, i128> {
        match self {
            NumberType::I32 => parse_ber_i32(input).map(|(rest, n)| (rest, i128::from(n))),
            NumberType::I64 => parse_ber_i64(input).map(|(rest, n)| (rest, i128::from(n))),
            NumberType::U32 => parse_ber_u32(input).map(|(rest, n)| (rest, i128::from(n))),
            NumberType::U64 => parse_ber_u64(input).map(|(rest, n)| (rest, i128::from(n))),
        }
    }

    /// The same by DER.
    fn read_by_der(self, input: &[u8]) -> BerResult<'_, i128> {
        match self {
            NumberType::I32 => parse_der_i32(input).map(|(rest, n)| (rest, i128::from(n))),
            NumberType::I64 => parse_der_i64(input).map(|(rest, n)| (rest, i128::from(n))),
            NumberType::U32 => parse_der_u32(input).map(|(rest, n)| (rest, i128::from(n))),
            NumberType::U64 => parse_der_u64(input).map(|(rest, n)| (rest, i128::from(n))),
        }
    }
}

/// The number, or the words of the refusal.
fn text_of(alloc: Global, number: Result<i128, BerError>) -> Result<String, AllocError> {
    let mut text = String::new(alloc);
    push_found(&mut text, number)?;
    Ok(text)
}

fn push_found(text: &mut String, number: Result<i128, BerError>) -> Result<(), AllocError> {
    match number {
        Ok(number) => push_number(text, number),
        Err(e) => push_refusal(text, &e),
    }
}

/// The number of an object that is read, and what follows it.
fn text_of_object(
    alloc: Global,
    number_type: NumberType,
    given: BerResult<'_>,
) -> Result<String, AllocError> {
    let mut text = String::new(alloc);
    match &given {
        Ok((rest, object)) => {
            push_found(&mut text, number_type.of_object(object))?;
            push_rest(&mut text, rest)?;
        }
        Err(e) => push_refused(&mut text, e)?,
    }
    Ok(text)
}
