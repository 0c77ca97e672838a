//! Words of calls.
use std::alloc::Global;
use test_tables::fault::Fault;

/// The numbers behind a call.
pub fn numbers(alloc: Global, words: &str) -> Result<Vec<usize>, Fault> {
    let mut numbers = Vec::new(alloc);
    for word in words.split_ascii_whitespace() {
        numbers.push(number(word)?)?;
    }
    Ok(numbers)
}

/// The number that a word spells.
pub fn number(word: &str) -> Result<usize, Fault> {
    match word.parse::<usize>() {
        Ok(number) => Ok(number),
        Err(_) => Err(Fault::Input),
    }
}
