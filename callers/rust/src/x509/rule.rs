//! The rules that a certificate or a CRL breaks.
use crate::error::show;
use crate::ffi::{self, MAX_BROKEN_RULES};
use core::fmt;

/// A rule of RFC 5280's text, or of an RFC beside it, that a certificate or a CRL breaks. It prints as a text with its
/// section: `nameConstraints isn't critical (RFC 5280 4.2.1.10)`.
#[derive(Clone, Copy, Debug, PartialEq, Eq, Hash)]
pub struct BrokenRule(u32);

impl BrokenRule {
    /// Its number in `dumarewhi.h`. In another version the number may be another rule's: keep the text.
    pub fn number(self) -> u32 {
        self.0
    }

    /// Whether the RFC says MUST or MUST NOT, rather than SHOULD or SHOULD NOT.
    pub fn is_must(self) -> bool {
        ffi::rule_kind(self.0) == ffi::RULE_MUST
    }
}

impl fmt::Display for BrokenRule {
    fn fmt(&self, f: &mut fmt::Formatter<'_>) -> fmt::Result {
        show(f, |text| ffi::rule_text(self.0, text))
    }
}

/// The rules that a certificate or a CRL breaks, which was read.
pub(super) fn broken_rules(of_list: bool, input: &[u8]) -> impl Iterator<Item = BrokenRule> {
    let mut rules = [0; MAX_BROKEN_RULES];
    let count = ffi::broken_rules(of_list, input, &mut rules).unwrap_or(0);
    rules.into_iter().take(count).map(BrokenRule)
}
