//! Trees of elements.
use crate::element::{found, whole, Found, Rules};
use crate::error::{ErrorKind, Result};
use crate::ffi;
use crate::{Any, Element, Error, Tag};
use alloc::vec::Vec;
use core::fmt;
use core::iter::FusedIterator;
use core::ops::Range;

/// An element and those inside it, over the input that it was read from.
///
/// The tree takes 40 octets for each element. An element has at least two octets.
///
/// ```
/// use dumarewhi::{Tag, Tree};
///
/// let tree = Tree::parse_der(&[0x30, 0x06, 0x02, 0x01, 0x05, 0x01, 0x01, 0xff])?;
/// let root = tree.root();
/// assert_eq!(root.tag(), Tag::SEQUENCE);
/// let items: Vec<_> = root.children().collect();
/// assert_eq!(items[0].as_u64()?, 5);
/// assert!(items[1].as_bool()?);
/// # Ok::<(), dumarewhi::Error>(())
/// ```
#[derive(Clone, PartialEq, Eq, Hash)]
pub struct Tree<'a> {
    input: &'a [u8],
    elements: Vec<Element>,
    /// Offset of the input in the outermost one.
    base: usize,
    rules: Rules,
}

impl<'a> Tree<'a> {
    /// Reads an input that is one element in DER.
    pub fn parse_der(input: &'a [u8]) -> Result<Tree<'a>> {
        whole(input, Rules::DER.parse(input)?)
    }

    /// Reads an input that is one element in BER.
    pub fn parse_ber(input: &'a [u8]) -> Result<Tree<'a>> {
        whole(input, Rules::BER.parse(input)?)
    }

    /// The outermost element.
    pub fn root(&self) -> Node<'_, 'a> {
        Node { tree: self, index: 0 }
    }

    /// All elements in preorder, the outermost one first.
    pub fn nodes(&self) -> Descendants<'_, 'a> {
        Descendants {
            tree: self,
            range: 0..self.elements.len(),
        }
    }

    /// The number of elements, at least one.
    #[allow(clippy::len_without_is_empty)]
    pub fn len(&self) -> usize {
        self.elements.len()
    }

    /// The offsets and tags of all elements in preorder.
    pub fn elements(&self) -> &[Element] {
        &self.elements
    }

    /// The list of elements, for [`Rules::parse_with`].
    pub fn into_elements(self) -> Vec<Element> {
        self.elements
    }
}

forward!(TryFrom by parse_der for Tree, Error);

forward! {
    /// All elements in preorder, as [`Tree::nodes`].
    IntoIterator by nodes for ['t, 'a] &'t Tree<'a> as Descendants<'t, 'a>
}

impl fmt::Debug for Tree<'_> {
    fn fmt(&self, f: &mut fmt::Formatter<'_>) -> fmt::Result {
        f.debug_list().entries(self.nodes()).finish()
    }
}

impl Rules {
    /// Reads the first element. Returns the rest of the input, and the tree.
    ///
    /// ```
    /// use dumarewhi::Rules;
    ///
    /// let (rest, tree) = Rules::DER.parse(&[0x02, 0x01, 0x05, 0x05, 0x00])?;
    /// assert_eq!((rest, tree.root().as_i64()?), (&[0x05, 0x00][..], 5));
    /// # Ok::<(), dumarewhi::Error>(())
    /// ```
    pub fn parse(self, input: &[u8]) -> Result<(&[u8], Tree<'_>)> {
        self.parse_with(input, Vec::new())
    }

    /// Reads as [`parse`](Rules::parse), and reuses the memory of a list.
    ///
    /// ```
    /// use dumarewhi::Rules;
    ///
    /// let mut places = Vec::new();
    /// for input in [[0x02, 0x01, 0x05], [0x02, 0x01, 0x07]] {
    ///     let (_, tree) = Rules::DER.parse_with(&input, places)?;
    ///     places = tree.into_elements();
    /// }
    /// # Ok::<(), dumarewhi::Error>(())
    /// ```
    pub fn parse_with(self, input: &[u8], mut elements: Vec<Element>) -> Result<(&[u8], Tree<'_>)> {
        elements.clear();
        // If the guess is too small, or there is no memory for it, the elements are counted first.
        let _ = elements.try_reserve_exact(likely_elements(input));
        let mut found = self.list_in_vec(input, &mut elements)?;
        if found.elements > elements.len() {
            elements.clear();
            let reserved = elements.try_reserve_exact(found.elements);
            reserved.map_err(|_| Error::new(ErrorKind::OutOfMemory, 0))?;
            found = self.list_in_vec(input, &mut elements)?;
        }
        let tree = Tree {
            input,
            elements,
            base: 0,
            rules: self,
        };
        Ok((input.get(found.length..).unwrap_or_default(), tree))
    }

    fn list_in_vec(self, input: &[u8], elements: &mut Vec<Element>) -> Result<Found> {
        let outcome = ffi::list_in_vec(self.is_der(), input, self.max_depth(), elements);
        found(outcome, input)
    }
}

/// How many elements there are likely to be at most: an element that isn't empty has three octets. What follows the
/// first one needs no memory. No more than 65,536, which have 2.5 MiB: an element may be one long string.
fn likely_elements(input: &[u8]) -> usize {
    let length = Rules::DER.first_length(input).unwrap_or(input.len());
    (length / 3).saturating_add(2).min(1 << 16)
}

/// An element of a tree.
///
/// Its `as_` calls return a value if the element has the tag of that type.
///
/// ```
/// use dumarewhi::Tree;
///
/// // [0] EXPLICIT INTEGER
/// let tree = Tree::parse_der(&[0xa0, 0x03, 0x02, 0x01, 0x02])?;
/// let version = tree.root().children().next().unwrap();
/// assert_eq!((version.as_u64()?, version.offset()), (2, 2));
///
/// // An OCTET STRING that holds an INTEGER: its content isn't in the tree, and is read by itself.
/// let tree = Tree::parse_der(&[0x04, 0x03, 0x02, 0x01, 0x02])?;
/// assert_eq!(tree.root().children().count(), 0);
/// let held = tree.root().parse_content()?;
/// assert_eq!((held.root().as_u64()?, held.root().offset()), (2, 2));
/// # Ok::<(), dumarewhi::Error>(())
/// ```
#[derive(Clone, Copy)]
pub struct Node<'t, 'a> {
    tree: &'t Tree<'a>,
    index: usize,
}

impl<'t, 'a> Node<'t, 'a> {
    fn element(&self) -> Element {
        // Its index is that of an element.
        self.tree.elements.get(self.index).copied().unwrap_or_default()
    }

    /// The element without its tree, which it outlives.
    pub fn any(&self) -> Any<'a> {
        Any::new(self.tree.input, self.element(), self.tree.base, self.tree.rules)
    }

    /// The elements directly inside a constructed element (X.690 8.1.4). A primitive one has none: see
    /// [`parse_content`](Node::parse_content).
    pub fn children(&self) -> Children<'t, 'a> {
        Children {
            tree: self.tree,
            range: self.inside(),
        }
    }

    /// The elements inside it at any depth, in preorder.
    pub fn descendants(&self) -> Descendants<'t, 'a> {
        Descendants {
            tree: self.tree,
            range: self.inside(),
        }
    }

    fn inside(&self) -> Range<usize> {
        let first = self.index.saturating_add(1);
        first..first.saturating_add(self.element().inside)
    }

    /// Reads content octets that are one element, by the same rules, such as an encoding inside an OCTET STRING.
    /// Offsets count in the outermost input.
    pub fn parse_content(&self) -> Result<Tree<'a>> {
        let any = self.any();
        let (content, base) = (any.content(), any.content_offset());
        let read = any.rules().inside().parse(content);
        let tree = read.and_then(|read| whole(content, read));
        tree.map(|tree| Tree { base, ..tree })
            .map_err(|error| error.inside(base))
    }

    /// The tag.
    pub fn tag(&self) -> Tag {
        self.element().tag()
    }

    /// Whether it is constructed, by its identifier octets (X.690 8.1.2.5).
    pub fn is_constructed(&self) -> bool {
        self.element().is_constructed()
    }
}

forward! {
    /// The elements directly inside it, as [`Node::children`].
    IntoIterator by children for ['t, 'a] Node<'t, 'a> as Children<'t, 'a>
}

impl fmt::Debug for Node<'_, '_> {
    fn fmt(&self, f: &mut fmt::Formatter<'_>) -> fmt::Result {
        self.any().fmt(f)
    }
}

/// The elements of a constructed element, in order.
#[derive(Clone, Debug)]
pub struct Children<'t, 'a> {
    tree: &'t Tree<'a>,
    range: Range<usize>,
}

impl<'t, 'a> Iterator for Children<'t, 'a> {
    type Item = Node<'t, 'a>;

    fn next(&mut self) -> Option<Node<'t, 'a>> {
        if self.range.is_empty() {
            return None;
        }
        let node = Node {
            tree: self.tree,
            index: self.range.start,
        };
        self.range.start = node.inside().end;
        Some(node)
    }
}

impl FusedIterator for Children<'_, '_> {}

/// Elements in preorder.
#[derive(Clone, Debug)]
pub struct Descendants<'t, 'a> {
    tree: &'t Tree<'a>,
    range: Range<usize>,
}

impl<'t, 'a> Iterator for Descendants<'t, 'a> {
    type Item = Node<'t, 'a>;

    fn next(&mut self) -> Option<Node<'t, 'a>> {
        let index = self.range.next()?;
        Some(Node {
            tree: self.tree,
            index,
        })
    }

    fn size_hint(&self) -> (usize, Option<usize>) {
        self.range.size_hint()
    }
}

impl ExactSizeIterator for Descendants<'_, '_> {}

impl FusedIterator for Descendants<'_, '_> {}
