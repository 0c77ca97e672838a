//! Modules with damage: each is read, or has an error with a place in the text, soon.

use asn1_types::{Types, TypesError};
use std::alloc::{AllocError, Global};

/// How many damaged modules were read, and how many had an error.
#[derive(Clone, Copy, Drop)]
pub struct Outcomes {
    pub read: usize,
    pub errors: usize,
    /// Errors whose line or column isn't in the text.
    pub misplaced: usize,
}

/// A generator of numbers.
#[derive(Clone, Copy, Drop)]
struct Numbers(u64);

/// Where a token stands.
#[derive(Clone, Copy)]
struct Token {
    start: usize,
    end: usize,
}

/// What a token is replaced by.
const REPLACEMENTS: &[&str] = &[
    "", "{", "}", "[", "]", "(", ")", ",", ";", "::=", "...", "[[", "]]", "\"", "--", "/*", "@", "|", "<", "&a",
    "[UNKNOWN 1]", "[UNIVERSAL 99]", "[APPLICATION 4294967296]", "[99999999999999999999999999] IMPLICIT",
    "123456789012345678901234567890123456789012345678901234567890", "-1", "CHOICE {}", "SET OF", "OPTIONAL", "END",
    "COMPONENTS OF", "INSTANCE OF", "ANY DEFINED BY a", "a < A", "A.&b ({C}{@d})", "BEGIN", "IMPORTS", "DEFAULT",
    "\u{e9}", "\u{0}",
];

/// What is repeated, once for each level.
const NESTED: &[&str] = &["{ ", "( ", "[ ", "[[ ", "SEQUENCE { a ", "CHOICE { b ", "SET OF ", "[1] ", "/* ", "\" ", "a < "];

/// The levels of nested tokens.
const LEVELS: [usize; 4] = [10, 65, 200, 2000];

/// The kinds of damage.
const KINDS: u64 = 7;

/// Reads so many damaged modules, each of one of these.
pub fn read_damaged(alloc: Global, modules: &[&[u8]], count: u64) -> Result<Outcomes, AllocError> {
    let mut outcomes = Outcomes { read: 0, errors: 0, misplaced: 0 };
    for seed in 0..count {
        let index = (seed % modules.len().max(1) as u64) as usize;
        let Some(module) = modules.get(index) else {
            return Ok(outcomes);
        };
        let text = damaged(alloc, module, seed)?;
        match Types::from_texts(alloc, &[text.as_slice()]) {
            Ok(_) => outcomes.read = outcomes.read.saturating_add(1),
            Err(error) if is_in(&text, error) => outcomes.errors = outcomes.errors.saturating_add(1),
            Err(_) => outcomes.misplaced = outcomes.misplaced.saturating_add(1),
        }
    }
    Ok(outcomes)
}

/// Whether an error has a line of the text, and a column of this line, or the one behind it.
fn is_in(text: &[u8], error: TypesError) -> bool {
    match text.split(|it| *it == b'\n').nth(error.line.saturating_sub(1)) {
        Some(line) => error.text == 0 && error.line > 0 && (1..=line.len().saturating_add(1)).contains(&error.column),
        None => false,
    }
}

/// A module with one damage, which the seed says.
fn damaged(alloc: Global, module: &[u8], seed: u64) -> Result<Vec<u8>, AllocError> {
    let mut numbers = Numbers(seed);
    let token = token_at(module, numbers.below(module.len()));
    let Token { start, end } = token;
    let mut text = Vec::from_slice(alloc, module)?;
    match numbers.below(KINDS as usize) {
        0 => text.truncate(start),
        1 => put(alloc, &mut text, Token { start: end, end }, &module[start..end])?,
        2 => swap(alloc, &mut text, token, token_at(module, numbers.below(module.len())))?,
        3 => swap_brackets(&mut text, token),
        4 => put(alloc, &mut text, Token { start, end: start.saturating_add(1) }, &[numbers.below(256) as u8])?,
        5 => nest(alloc, &mut text, token, &mut numbers)?,
        _ => put(alloc, &mut text, token, word(REPLACEMENTS, numbers.below(REPLACEMENTS.len())))?,
    }
    Ok(text)
}

impl Numbers {
    /// The next number, below a bound.
    fn below(&mut self, bound: usize) -> usize {
        self.0 = self.0.wrapping_mul(6_364_136_223_846_793_005).wrapping_add(1_442_695_040_888_963_407);
        let mixed = (self.0 ^ (self.0 >> 29)).wrapping_mul(0xbf58_476d_1ce4_e5b9);
        ((mixed >> 33) % bound.max(1) as u64) as usize
    }
}

fn word(words: &'static [&'static str], index: usize) -> &'static [u8] {
    match words.get(index) {
        Some(word) => word.as_bytes(),
        None => b"",
    }
}

fn is_letter(octet: u8) -> bool {
    octet.is_ascii_alphanumeric() || octet == b'-'
}

/// The token that an offset is in, or the octet.
fn token_at(text: &[u8], offset: usize) -> Token {
    let before = &text[..offset.min(text.len())];
    let after = &text[offset.min(text.len())..];
    let size = after.iter().take_while(|it| is_letter(**it)).count();
    let passed = before.iter().rev().take_while(|it| is_letter(**it)).count();
    if size == 0 {
        return Token { start: before.len(), end: before.len().saturating_add(1).min(text.len()) };
    }
    Token { start: before.len().saturating_sub(passed), end: before.len().saturating_add(size) }
}

/// Replaces a token.
fn put(alloc: Global, text: &mut Vec<u8>, token: Token, other: &[u8]) -> Result<(), AllocError> {
    let Token { start, end } = token;
    let mut rest = Vec::new(alloc);
    rest.extend_from_slice(text.get(end..).unwrap_or(&[]))?;
    text.truncate(start);
    text.extend_from_slice(other)?;
    text.extend_from_slice(&rest)
}

/// Swaps two tokens, or replaces one that has a part of the other.
fn swap(alloc: Global, text: &mut Vec<u8>, one: Token, other: Token) -> Result<(), AllocError> {
    let (first, second) = if one.start <= other.start { (one, other) } else { (other, one) };
    let mut words = Vec::new(alloc);
    words.extend_from_slice(text.get(second.start..second.end).unwrap_or(&[]))?;
    if first.end <= second.start {
        let mut word = Vec::new(alloc);
        word.extend_from_slice(text.get(first.start..first.end).unwrap_or(&[]))?;
        put(alloc, text, second, &word)?;
    }
    put(alloc, text, first, &words)
}

/// Turns the first bracket from a token on the other way.
fn swap_brackets(text: &mut Vec<u8>, token: Token) {
    for octet in text.iter_mut().skip(token.start) {
        let other = match *octet {
            b'{' => b'}',
            b'}' => b'{',
            b'(' => b')',
            b')' => b'(',
            b'[' => b']',
            b']' => b'[',
            _ => continue,
        };
        *octet = other;
        return;
    }
}

/// Puts many opening tokens before one.
fn nest(alloc: Global, text: &mut Vec<u8>, token: Token, numbers: &mut Numbers) -> Result<(), AllocError> {
    let opening = word(NESTED, numbers.below(NESTED.len()));
    let levels = LEVELS.get(numbers.below(LEVELS.len())).copied().unwrap_or(1);
    let mut nested = Vec::new(alloc);
    for _ in 0..levels {
        nested.extend_from_slice(opening)?;
    }
    put(alloc, text, Token { start: token.start, end: token.start }, &nested)
}
