//! Both readers, and what they return in one form.
use der_parser::ber::{parse_ber_recursive, BerObject, BerObjectContent, BerSize};
use der_parser::der::parse_der_recursive;
use der_parser::nom;
use dumarewhi::{ErrorKind, Node, Reason, Rules, Tag, Tree};

/// How deep both of them read.
pub const DEPTH: usize = 50;

/// One element: where it begins, how many are around it, its identifier, and its length unless that is indefinite.
#[derive(Clone, Copy, Debug, PartialEq, Eq)]
pub struct Place {
    pub offset: usize,
    pub depth: usize,
    pub class: u8,
    pub constructed: bool,
    pub number: u32,
    pub length: Option<usize>,
}

/// What a reader returns.
#[derive(Debug, PartialEq, Eq)]
pub enum Outcome {
    /// The elements in preorder, and how many octets are left.
    Read(Vec<Place>, usize),
    Refused,
    CutShort,
}

impl Outcome {
    pub fn is_read(&self) -> bool {
        matches!(self, Outcome::Read(..))
    }
}

/// Why dumarewhi refuses, and where the element begins that shows it.
pub type Refusal = (Reason, usize);

/// What dumarewhi returns, and why if it refuses.
pub fn own(rules: Rules, input: &[u8], depth: usize) -> (Outcome, Option<Refusal>) {
    match rules.with_max_depth(depth).parse(input) {
        Ok((rest, tree)) => (Outcome::Read(own_places(&tree), rest.len()), None),
        Err(error) => match error.kind() {
            ErrorKind::Incomplete { .. } => (Outcome::CutShort, None),
            ErrorKind::Malformed(reason) => (Outcome::Refused, Some((reason, error.offset()))),
            kind => panic!("{kind}"),
        },
    }
}

/// The elements but those that der-parser doesn't look for: inside another class, or a string.
fn own_places(tree: &Tree<'_>) -> Vec<Place> {
    let mut places = Vec::with_capacity(tree.len());
    push_own(tree.root(), 0, &mut places);
    places
}

fn push_own(node: Node<'_, '_>, depth: usize, places: &mut Vec<Place>) {
    let has_marker = node.octets().len() > node.header().len() + node.content().len();
    places.push(Place {
        offset: node.offset(),
        depth,
        class: node.class() as u8,
        constructed: node.is_constructed(),
        number: node.tag().number,
        length: (!has_marker).then(|| node.content().len()),
    });
    if matches!(node.tag(), Tag::SEQUENCE | Tag::SET) {
        node.children()
            .for_each(|child| push_own(child, depth + 1, places));
    }
}

/// What der-parser returns.
pub fn other(rules: Rules, input: &[u8], depth: usize) -> Outcome {
    let read = if rules.is_der() {
        parse_der_recursive(input, depth)
    } else {
        parse_ber_recursive(input, depth)
    };
    match read {
        Ok((rest, object)) => {
            let mut places = Vec::new();
            push_places(input, &object, 0, &mut places);
            Outcome::Read(places, rest.len())
        }
        Err(nom::Err::Incomplete(_)) => Outcome::CutShort,
        Err(_) => Outcome::Refused,
    }
}

fn push_places(input: &[u8], object: &BerObject<'_>, depth: usize, places: &mut Vec<Place>) {
    let header = &object.header;
    let identifier = header.raw_tag.expect("a reader keeps the identifier octets");
    places.push(Place {
        offset: identifier.as_ptr() as usize - input.as_ptr() as usize,
        depth,
        class: header.class as u8,
        constructed: header.is_constructed(),
        number: header.tag.0,
        length: match header.len {
            BerSize::Definite(length) => Some(length),
            BerSize::Indefinite => None,
        },
    });
    if let BerObjectContent::Sequence(items) | BerObjectContent::Set(items) = &object.content {
        for item in items {
            push_places(input, item, depth + 1, places);
        }
    }
}
