//! Elements: listed, in a tree, from a stream, and written as DER.
use crate::ask::{Ask, Sink};
use dumarewhi::{
    check_ber, check_der, list_ber, list_der, to_der, to_vec, write_der, Any, Buffer, Element, Node, Result,
    Rules, Tag, Tree, Writer,
};

pub fn tree(input: &[u8], rules: Rules, sink: &mut Sink) {
    let shallow = rules.with_max_depth(input.len() % 8);
    shallow.check(input).ask(sink);
    shallow
        .parse(input)
        .map(|(rest, tree)| (rest.len(), tree.len()))
        .ask(sink);
    check_ber(input).ask(sink);
    check_der(input).ask(sink);
    rules.first_length(input).ask(sink);
    rules.first(input).ask(sink);
    let mut few = [Element::default(); 3];
    list_der(input, &mut few).ask(sink);
    list_ber(input, &mut few).ask(sink);
    rules.list(input, &mut few).ask(sink);
    Any::from_der(input).ask(sink);
    Any::from_ber(input).ask(sink);
    Tree::parse_der(input).map(|tree| tree.len()).ask(sink);
    Tree::parse_ber(input).map(|tree| tree.len()).ask(sink);
    rules.max_depth().ask(sink);
    match rules.parse(input) {
        Ok((rest, tree)) => {
            let (after, any) = rules.any(input).unwrap();
            assert_eq!((after, any.octets()), (rest, tree.root().octets()));
            tree.ask(sink);
            let again = rules.parse_with(input, tree.clone().into_elements());
            assert_eq!(again.map(|(_, again)| again.len()), Ok(tree.len()));
            match written_again(&tree) {
                Ok(octets) if rules.is_der() => assert_eq!(octets, tree.root().octets()),
                // A time may have no value.
                written => written.ask(sink),
            }
        }
        Err(error) => error.ask(sink),
    }
}

/// The tree, written element after element.
fn written_again(tree: &Tree<'_>) -> Result<Vec<u8>> {
    to_vec(|w| write(w, tree.root()))
}

fn write(w: &mut Writer<'_>, node: Node<'_, '_>) -> Result<()> {
    if node.is_constructed() {
        return w.open_tagged(node.tag(), |w| {
            node.children().try_for_each(|child| write(w, child))
        });
    }
    match node.tag() {
        Tag::BOOLEAN => w.put_bool(node.as_bool()?),
        Tag::INTEGER => w.put_integer(node.as_integer()?)?,
        Tag::BIT_STRING => {
            let bits = node.as_bit_string()?;
            w.put_bits(bits.unused_bits(), bits.raw_bytes());
        }
        Tag::OCTET_STRING => w.put_octets(node.as_bytes()?),
        Tag::NULL => w.put_null(),
        Tag::OBJECT_IDENTIFIER => w.put_oid(node.as_oid()?),
        Tag::UTC_TIME => w.put_utc_time(node.as_time()?)?,
        Tag::GENERALIZED_TIME => w.put_generalized_time(node.as_time()?)?,
        tag => match node.as_str() {
            Ok(text) => w.put_text(tag, text)?,
            Err(_) => w.implicit(tag).put_octets(node.content()),
        },
    }
    Ok(())
}

/// What is written as DER is DER, in a buffer of any size.
pub fn written(input: &[u8], sink: &mut Sink) {
    let mut out = [0; 64];
    match to_der(input) {
        Ok(octets) => {
            assert_eq!(write_der(input, &mut out), Ok(octets.len()));
            assert_eq!(to_der(&octets).as_ref(), Ok(&octets));
            if octets.len() <= out.len() {
                assert_eq!(&out[..octets.len()], octets);
            }
        }
        Err(error) => {
            write_der(input, &mut out).ask(sink);
            error.ask(sink);
        }
    }
}

/// Elements from a stream that is cut at many places are those of the whole.
pub fn stream(input: &[u8], rules: Rules, sink: &mut Sink) {
    let (size, input) = match input {
        [size, input @ ..] => (usize::from(*size) + 1, input),
        [] => return,
    };
    let mut buffer = Buffer::new(rules).with_limit(1000);
    let (mut octets, mut trees) = (0, buffer.clone());
    for piece in input.chunks(size) {
        buffer.feed(piece);
        while let Ok(Some(found)) = buffer.next_octets() {
            octets += found.len();
        }
        trees.feed(piece);
        for _ in 0..piece.len() {
            match trees.next_tree() {
                Ok(Some(tree)) => tree.root().ask(sink),
                Ok(None) => break,
                Err(error) => error.ask(sink),
            }
        }
        buffer.missing().ask(sink);
    }
    assert_eq!(buffer.position(), octets as u64);
    assert_eq!(buffer.pending().len() + octets, input.len());
    buffer.finish().ask(sink);
    trees.finish().ask(sink);
}
