//! Finds the rule that decides where the readers differ: at an element, or at the first one inside it that they don't
//! read alike.
use crate::case::{framing, is_other_end, Case};
use crate::readers::Outcome;
use crate::rules::{rule_named, FRAMING_FIRST, ITEMS_BY_BER, LISTS_END, OTHER_END, RULES};
use dumarewhi::Rules;

impl<'a> Case<'a> {
    /// The number of the rule that decides at the element, or at the first one inside it where the readers differ.
    fn decide(&self) -> Option<usize> {
        if let Some(rule) = RULES.iter().position(|rule| (rule.decides)(self)) {
            return Some(rule);
        }
        if self.is_indefinite() && !self.is_list() {
            return self.decide_in_framing();
        }
        let header = self.header.filter(|it| it.is_list())?;
        match header.content(self.input) {
            Some(content) => self.decide_in_list(content),
            None => self.decide_in_indefinite(&self.input[header.size..]),
        }
    }

    /// What both readers do at an element of a list, from its octets on.
    fn step(&self, item: &'a [u8]) -> Step {
        let depth = match self.depth.checked_sub(1) {
            Some(depth) => depth,
            None => return Step::Differ(None),
        };
        let here = Case::new(self.rules, item, depth);
        let by_ber = Case::new(self.rules_inside(), item, depth);
        match (&here.own, &by_ber.other) {
            (Outcome::Read(places, left), Outcome::Read(others, rest))
                if places == others && left == rest =>
            {
                Step::Over(item.len() - left)
            }
            (own, other) if !own.is_read() && !other.is_read() => Step::Unread(here.refuses(self)),
            (Outcome::Refused, _) if here.breaks_der() && by_ber.own == by_ber.other => {
                let is_of_item = self.reason == here.reason;
                Step::Differ(rule_named(ITEMS_BY_BER).filter(|_| is_of_item))
            }
            _ => Step::Differ(by_ber.decide()),
        }
    }

    /// The rules by which der-parser 6 reads the elements of a list.
    fn rules_inside(&self) -> Rules {
        match self.rules.is_der() {
            true => Rules::BER,
            false => self.rules,
        }
    }

    /// The rule in a list of definite length, which has the reason of its first element that isn't read.
    fn decide_in_list(&self, content: &'a [u8]) -> Option<usize> {
        let mut rest = content;
        while !rest.is_empty() {
            match self.step(rest) {
                Step::Over(length) => rest = &rest[length..],
                Step::Unread(is_of_item) => {
                    return rule_named(LISTS_END).filter(|_| is_of_item && self.other.is_read());
                }
                Step::Differ(rule) => return rule,
            }
        }
        None
    }

    fn decide_in_indefinite(&self, content: &'a [u8]) -> Option<usize> {
        let mut rest = content;
        while !rest.starts_with(&[0, 0]) {
            if is_other_end(rest) {
                return rule_named(OTHER_END);
            }
            match self.step(rest) {
                Step::Over(length) => rest = &rest[length..],
                Step::Unread(_) => return self.decide_at_unread(rest),
                Step::Differ(rule) => return rule,
            }
        }
        None
    }

    /// The rule where an element of an indefinite length is read by neither, so der-parser 6 doesn't read on.
    fn decide_at_unread(&self, item: &'a [u8]) -> Option<usize> {
        let here = Case::new(self.rules, item, self.depth - 1);
        match (here.own == here.other, Rules::BER.first_length(self.input)) {
            (true, Err(_)) => rule_named(FRAMING_FIRST),
            (true, Ok(_)) => None,
            (false, _) => here.decide(),
        }
    }

    /// The rule at a header that is looked at to find the end of an indefinite length.
    fn decide_in_framing(&self) -> Option<usize> {
        framing(self.input).into_iter().find_map(|rest| {
            let case = Case::new(self.rules, rest, self.depth);
            RULES
                .iter()
                .position(|rule| rule.is_of_header && (rule.decides)(&case))
        })
    }
}

/// What both readers do at an element of a list.
enum Step {
    /// They read the same, of so many octets.
    Over(usize),
    /// Neither reads it, and whether the list around it is refused for that.
    Unread(bool),
    /// They differ, by the rule of this number.
    Differ(Option<usize>),
}

/// What the comparison of one input gives.
pub enum Found {
    Alike(Outcome),
    /// The readers differ by the rule of this number.
    Differ(usize),
    /// The readers differ, and no rule decides.
    Unknown(String),
}

pub fn compare(rules: Rules, input: &[u8], depth: usize) -> Found {
    let case = Case::new(rules, input, depth);
    if case.own == case.other {
        return Found::Alike(case.own);
    }
    match case.decide() {
        Some(rule) => Found::Differ(rule),
        None => Found::Unknown(format!(
            "dumarewhi {:?} {:?}, der-parser {:?}",
            case.own, case.reason, case.other
        )),
    }
}
