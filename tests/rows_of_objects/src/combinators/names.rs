//! Names in the calls of a file of rows.
use der_parser::Rules;
use der_parser::ber::Tag;

/// The first word of a call, and the words after it.
pub fn first_word(call: &str) -> (&str, &str) {
    call.split_once(' ').unwrap_or((call, ""))
}

/// The rules in the name of a call, and the name without them: `parse_ber_set_of` is BER and `set_of`.
pub fn rules_of(name: &str) -> Option<(Rules, &str)> {
    match name.strip_prefix("parse_ber_") {
        Some(form) => Some((Rules::Ber, form)),
        None => Some((Rules::Der, name.strip_prefix("parse_der_")?)),
    }
}

/// The tag that a call's words begin with, and the words after it.
pub fn tag_of(words: &str) -> Option<(Tag, &str)> {
    let (number, words) = first_word(words);
    Some((Tag(number.parse().ok()?), words))
}
