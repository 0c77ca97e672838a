//! Real inputs and damaged ones, the same at each run.
use crate::header::{Header, Length};

/// Numbers of the generator xorshift64 (Marsaglia 2003).
pub struct Random(u64);

impl Random {
    pub fn new(seed: u64) -> Random {
        Random(seed)
    }

    fn next(&mut self) -> u64 {
        self.0 ^= self.0 << 13;
        self.0 ^= self.0 >> 7;
        self.0 ^= self.0 << 17;
        self.0
    }

    pub fn below(&mut self, end: usize) -> usize {
        (self.next() % end as u64) as usize
    }

    fn one_of<T: Copy>(&mut self, these: &[T]) -> T {
        these[self.below(these.len())]
    }

    /// Any octet, or one that elements are made of.
    fn octet(&mut self) -> u8 {
        match self.below(2) {
            0 => self.next() as u8,
            _ => self.one_of(LIKELY),
        }
    }
}

const LIKELY: &[u8] = &[
    0, 1, 2, 3, 4, 5, 6, 7, 8, 10, 12, 13, 16, 17, 18, 19, 20, 22, 23, 24, 26, 27, 28, 30, 0x1f, 0x20, 0x21,
    0x22, 0x24, 0x25, 0x30, 0x31, 0x5f, 0x7f, 0x80, 0x81, 0x82, 0x84, 0xa0, 0xbf, 0xff,
];

/// A real input or a part of it, as it is or in another spelling of BER, that is damaged up to twice. Some have
/// an element beside them that is not from a file.
pub fn damaged(random: &mut Random, real: &[u8]) -> Vec<u8> {
    let mut input = match random.below(6) {
        0 | 1 => part(random, real),
        2 => beside(random, real),
        _ => real.to_vec(),
    };
    if random.below(2) == 0 {
        input = respelled(random, &input);
    }
    for _ in 0..random.below(3) {
        damage(random, &mut input);
    }
    input
}

/// Where each element begins, in elements of any class. The start of the input is always one of these places.
fn places(input: &[u8]) -> Vec<usize> {
    let mut places = Vec::new();
    push_places(input, 0, input.len(), &mut places);
    if places.is_empty() {
        places.push(0);
    }
    places
}

fn push_places(input: &[u8], start: usize, end: usize, places: &mut Vec<usize>) {
    let mut at = start;
    while at < end {
        let header = match Header::read(&input[at..end]) {
            Some(header) => header,
            None => return,
        };
        places.push(at);
        let content = at + header.size;
        let length = match header.length {
            Length::Definite(length) => usize::try_from(length).unwrap_or(end).min(end - content),
            _ => end - content,
        };
        if header.constructed {
            push_places(input, content, content + length, places);
        }
        at = content + length;
    }
}

/// One of the elements.
fn part(random: &mut Random, input: &[u8]) -> Vec<u8> {
    let element = &input[random.one_of(&places(input))..];
    let header = Header::read(element);
    match header.and_then(|header| header.content(element).map(|content| header.size + content.len())) {
        Some(length) => element[..length].to_vec(),
        None => element.to_vec(),
    }
}

/// Texts of times, most of them in no form of X.690 11.7 and 11.8.
const TIMES: &[&[u8]] = &[
    b"200101000000Z",
    b"2001010000Z",
    b"200101000000+0100",
    b"201301000000Z",
    b"20200101000000Z",
    b"20200101000000.5Z",
    b"20200101000000.50Z",
    b"20200101000000,5Z",
    b"202001010000Z",
    b"20200101000000",
    b"Z",
];

/// A short element of a universal type, by itself or in a list with a part of the input.
fn beside(random: &mut Random, input: &[u8]) -> Vec<u8> {
    let number = random.below(31) as u8;
    let constructed = if random.below(8) == 0 { 0x20 } else { 0 };
    let mut element = vec![number | constructed];
    let content = match number {
        23 | 24 => random.one_of(TIMES).to_vec(),
        _ => (0..random.below(11)).map(|_| random.octet()).collect(),
    };
    push_content(&mut element, &content, false, 2);
    let content = match random.below(3) {
        0 => return element,
        1 => [element, part(random, input)].concat(),
        _ => [part(random, input), element].concat(),
    };
    let mut list = vec![random.one_of(&[0x30, 0x31])];
    push_content(&mut list, &content, true, 2);
    list
}

/// The same elements with other length octets: in more octets, or indefinite (X.690 8.1.3).
fn respelled(random: &mut Random, input: &[u8]) -> Vec<u8> {
    let mut spelled = Vec::new();
    let mut at = 0;
    while at < input.len() {
        let element = &input[at..];
        let whole = Header::read(element).and_then(|header| Some((header, header.content(element)?)));
        let (header, content) = match whole {
            Some(whole) => whole,
            None => {
                spelled.extend_from_slice(element);
                return spelled;
            }
        };
        let inside = match header.constructed {
            true => respelled(random, content),
            false => content.to_vec(),
        };
        spelled.extend_from_slice(&element[..header.identifier]);
        push_content(&mut spelled, &inside, header.constructed, random.below(4));
        at += header.size + content.len();
    }
    spelled
}

/// Adds length octets and a content, in one of four forms. A primitive element has no indefinite one.
fn push_content(spelled: &mut Vec<u8>, content: &[u8], constructed: bool, form: usize) {
    match form {
        0 if constructed => {
            spelled.push(0x80);
            spelled.extend_from_slice(content);
            spelled.extend_from_slice(&[0, 0]);
        }
        1 => {
            spelled.push(0x84);
            spelled.extend_from_slice(&(content.len() as u32).to_be_bytes());
            spelled.extend_from_slice(content);
        }
        _ => {
            push_length(spelled, content.len());
            spelled.extend_from_slice(content);
        }
    }
}

/// The length in the fewest octets (10.1).
fn push_length(spelled: &mut Vec<u8>, length: usize) {
    if length < 0x80 {
        spelled.push(length as u8);
        return;
    }
    let octets = length.to_be_bytes();
    let zeros = octets.iter().take_while(|octet| **octet == 0).count();
    spelled.push(0x80 | (octets.len() - zeros) as u8);
    spelled.extend_from_slice(&octets[zeros..]);
}

fn damage(random: &mut Random, input: &mut Vec<u8>) {
    if input.is_empty() {
        input.push(random.octet());
        return;
    }
    let at = random.below(input.len());
    match random.below(8) {
        0 => input[at] = random.octet(),
        1 => input.truncate(at),
        2 => input.insert(at, random.octet()),
        3 => drop(input.remove(at)),
        4 => change_length(random, input),
        5 => *input = nested(random, input),
        // What type an element has is seen by its first octet, so that is changed the most.
        _ => change_identifier(random, input),
    }
}

fn change_identifier(random: &mut Random, input: &mut Vec<u8>) {
    let at = random.one_of(&places(input));
    match random.below(6) {
        // A number in the long form, of up to six octets
        0 => {
            input[at] |= 0x1f;
            for _ in 0..random.below(6) {
                input.insert(at + 1, random.octet() | 0x80);
            }
            input.insert(at + 1, random.octet());
        }
        1 => input[at] ^= 0x20,
        _ => input[at] = random.octet(),
    }
}

fn change_length(random: &mut Random, input: &mut Vec<u8>) {
    let at = random.one_of(&places(input));
    let header = match Header::read(&input[at..]) {
        Some(header) => header,
        None => return,
    };
    let old = at + header.identifier..at + header.size;
    let length = match header.length {
        Length::Definite(length) => length as usize,
        _ => input.len() - at - header.size,
    };
    let mut octets = Vec::new();
    match random.below(8) {
        0 => push_length(&mut octets, length + 1 + random.below(3)),
        1 => push_length(&mut octets, length.saturating_sub(1 + random.below(3))),
        2 => octets.push(0x80),
        3 => octets.extend([0x81, length as u8]),
        4 => octets.extend([0x83, 0, (length >> 8) as u8, length as u8]),
        5 => octets.extend([0x84, 0xff, 0xff, 0xff, 0xff]),
        6 => octets.extend([0x85, 1, 0, 0, 0, 0]),
        _ => octets.push(random.octet()),
    }
    input.splice(old, octets);
}

/// The input inside other elements, up to the depth that is read and past it.
fn nested(random: &mut Random, input: &[u8]) -> Vec<u8> {
    let levels = match random.below(2) {
        0 => 1 + random.below(4),
        _ => 44 + random.below(12),
    };
    let (identifier, form) = (random.one_of(&[0x30, 0x30, 0x31, 0xa0, 0x24]), random.below(3));
    (0..levels).fold(input.to_vec(), |inside, _| {
        let mut outside = vec![identifier];
        push_content(&mut outside, &inside, true, form);
        outside
    })
}
