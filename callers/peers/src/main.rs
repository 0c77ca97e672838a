//! Reads real and damaged inputs by dumarewhi and by der-parser 6, by DER and by BER:  peers FOLDER
//!
//! It compares whether an input is read, refused or cut short, the elements, and what is left. Each difference is
//! counted under the rule that decides. One that no rule decides fails.
mod case;
mod decide;
mod header;
mod inputs;
mod readers;
mod rules;

use decide::{compare, Found};
use dumarewhi::Rules;
use inputs::Random;
use readers::{Outcome, DEPTH};
use rules::RULES;
use std::process::ExitCode;
use std::{env, fs, io};

const INPUTS: usize = 10_000;

/// How many inputs of each outcome are alike by a set of rules: fewer would compare nothing.
const LEAST_ALIKE: usize = 200;

/// The files of a folder, in the order of their names.
fn files(folder: &str) -> io::Result<Vec<Vec<u8>>> {
    let mut paths: Vec<_> = fs::read_dir(folder)?.collect::<io::Result<_>>()?;
    paths.sort_by_key(|it| it.file_name());
    paths.iter().map(|it| fs::read(it.path())).collect()
}

fn hex(octets: &[u8]) -> String {
    octets.iter().map(|octet| format!("{octet:02x}")).collect()
}

/// The octets of a text of numbers. `30.80*2` is `30 80 30 80`.
fn octets(text: &str) -> Vec<u8> {
    let octet = |pair| u8::from_str_radix(pair, 16).expect("an octet");
    text.split(' ')
        .flat_map(|word| {
            let (numbers, count) = word.split_once('*').unwrap_or((word, "1"));
            let octets: Vec<_> = numbers.split('.').map(octet).collect();
            octets.repeat(count.parse().expect("a count"))
        })
        .collect()
}

/// What was found of all inputs by a set of rules.
#[derive(Default)]
struct Counts {
    read: usize,
    refused: usize,
    cut_short: usize,
    differ: Vec<usize>,
    unknown: usize,
}

impl Counts {
    fn new() -> Counts {
        Counts {
            differ: vec![0; RULES.len()],
            ..Counts::default()
        }
    }

    fn add(&mut self, rules: Rules, input: &[u8]) {
        match compare(rules, input, DEPTH) {
            Found::Alike(Outcome::Read(..)) => self.read += 1,
            Found::Alike(Outcome::Refused) => self.refused += 1,
            Found::Alike(Outcome::CutShort) => self.cut_short += 1,
            Found::Differ(rule) => self.differ[rule] += 1,
            Found::Unknown(what) => {
                self.unknown += 1;
                if self.unknown <= 10 {
                    println!("no rule decides by {}: {}: {what}", name(rules), hex(input));
                }
            }
        }
    }

    fn compares_enough(&self) -> bool {
        [self.read, self.refused, self.cut_short]
            .iter()
            .all(|count| *count >= LEAST_ALIKE)
    }
}

fn name(rules: Rules) -> &'static str {
    if rules.is_der() {
        "DER"
    } else {
        "BER"
    }
}

/// Each rule decides at its examples. Returns whether all do.
fn examples_hold() -> bool {
    let mut hold = true;
    for (number, rule) in RULES.iter().enumerate() {
        for (is_der, text) in rule.examples {
            let rules = if *is_der { Rules::DER } else { Rules::BER };
            let decided = match compare(rules, &octets(text), DEPTH) {
                Found::Differ(decided) if decided == number => continue,
                Found::Differ(decided) => RULES[decided].name.to_string(),
                Found::Alike(outcome) => format!("alike, {outcome:?}"),
                Found::Unknown(what) => what,
            };
            println!("{} of {text} by {}: {decided}", rule.name, name(rules));
            hold = false;
        }
    }
    hold
}

fn main() -> ExitCode {
    let folder = env::args().nth(1).expect("usage: peers FOLDER");
    let files = files(&folder).expect("the folder is read");
    let mut random = Random::new(0x9e37_79b9_7f4a_7c15);
    let (mut by_der, mut by_ber) = (Counts::new(), Counts::new());
    for number in 0..INPUTS {
        let file = &files[number % files.len()];
        let input = match number < files.len() {
            true => file.clone(),
            false => inputs::damaged(&mut random, file),
        };
        by_der.add(Rules::DER, &input);
        by_ber.add(Rules::BER, &input);
    }
    println!("{:>6} {:>6}", "DER", "BER");
    let line = |der: usize, ber: usize, what: &str| println!("{der:>6} {ber:>6} {what}");
    line(by_der.read, by_ber.read, "read alike");
    line(by_der.refused, by_ber.refused, "refused by both");
    line(by_der.cut_short, by_ber.cut_short, "cut short for both");
    for (number, rule) in RULES.iter().enumerate() {
        line(
            by_der.differ[number],
            by_ber.differ[number],
            &format!("{} ({})", rule.name, rule.source),
        );
    }
    let unknown = by_der.unknown + by_ber.unknown;
    let differ: usize = by_der.differ.iter().chain(&by_ber.differ).sum();
    let enough = by_der.compares_enough() && by_ber.compares_enough();
    let hold = examples_hold();
    println!(
        "{INPUTS} inputs, {} of them real, by DER and by BER: {differ} differ by {} known rules, {unknown} by none",
        files.len().min(INPUTS),
        RULES.len()
    );
    if unknown > 0 || !hold || !enough {
        return ExitCode::FAILURE;
    }
    ExitCode::SUCCESS
}
