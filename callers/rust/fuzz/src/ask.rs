//! Asking a value for all that it has.
use dumarewhi::{
    Any, BitString, Class, Element, Error, ErrorKind, Found, Integer, Node, ObjectIdentifier,
    ObjectIdentifierBuf, Reason, Tag, Time, Tree, Zone,
};
use std::fmt::{self, Debug, Display, Write};
use std::hint::black_box;
use std::ops::Range;
use std::time::SystemTime;

/// Takes what is displayed, if that is asked for.
pub struct Sink {
    displays: bool,
    written: usize,
}

/// How many octets are displayed at most: the length of a text may be many times that of the input.
const LONGEST: usize = 1 << 13;

impl Sink {
    pub fn new(displays: bool) -> Sink {
        Sink { displays, written: 0 }
    }

    pub fn debug(&mut self, value: &dyn Debug) {
        if self.displays {
            let _ = write!(self, "{value:?}");
        }
    }

    pub fn display(&mut self, value: &dyn Display) {
        if self.displays {
            let _ = write!(self, "{value}");
        }
    }
}

impl Write for Sink {
    fn write_str(&mut self, text: &str) -> fmt::Result {
        self.written += black_box(text).len();
        if self.written > LONGEST {
            return Err(fmt::Error);
        }
        Ok(())
    }
}

pub trait Ask {
    fn ask(&self, sink: &mut Sink);
}

/// Values that have nothing more to ask for.
macro_rules! plain {
    ($($type:ty,)*) => {
        $(impl Ask for $type {
            fn ask(&self, _: &mut Sink) {
                black_box(self);
            }
        })*
    };
}

plain! {
    (), bool, u8, u16, u32, u64, u128, usize, i8, i16, i32, i64, isize, str, String, [u8], Range<usize>, Zone, Class,
    Found,
}

/// Types, and the calls that each has without arguments.
macro_rules! asks {
    ($($type:ty: $($call:ident)*;)*) => {
        $(impl $crate::ask::Ask for $type {
            fn ask(&self, sink: &mut $crate::ask::Sink) {
                sink.debug(self);
                $($crate::ask::Ask::ask(&self.$call(), sink);)*
            }
        })*
    };
}
pub(crate) use asks;

impl<T: Ask + ?Sized> Ask for &T {
    fn ask(&self, sink: &mut Sink) {
        (**self).ask(sink);
    }
}

impl<T: Ask> Ask for Option<T> {
    fn ask(&self, sink: &mut Sink) {
        self.iter().for_each(|value| value.ask(sink));
    }
}

impl<T: Ask, E: Ask> Ask for Result<T, E> {
    fn ask(&self, sink: &mut Sink) {
        match self {
            Ok(value) => value.ask(sink),
            Err(error) => error.ask(sink),
        }
    }
}

impl<A: Ask, B: Ask> Ask for (A, B) {
    fn ask(&self, sink: &mut Sink) {
        self.0.ask(sink);
        self.1.ask(sink);
    }
}

impl<T: Ask> Ask for Vec<T> {
    fn ask(&self, sink: &mut Sink) {
        self.iter().for_each(|value| value.ask(sink));
    }
}

impl Ask for Tag {
    fn ask(&self, sink: &mut Sink) {
        sink.debug(self);
        sink.display(self);
    }
}

impl Ask for Reason {
    fn ask(&self, sink: &mut Sink) {
        self.number().ask(sink);
        sink.debug(self);
        sink.display(self);
    }
}

impl Ask for ErrorKind {
    fn ask(&self, sink: &mut Sink) {
        sink.debug(self);
        sink.display(self);
    }
}

impl Ask for Error {
    fn ask(&self, sink: &mut Sink) {
        sink.debug(self);
        sink.display(self);
        self.kind().ask(sink);
        self.offset().ask(sink);
        black_box(self.field());
        self.list_end().ask(sink);
        self.found().ask(sink);
        self.reason().ask(sink);
        self.is_incomplete().ask(sink);
        self.missing().ask(sink);
        self.needed().ask(sink);
        black_box(std::io::Error::from(*self).kind());
    }
}

impl Ask for BitString<'_> {
    fn ask(&self, sink: &mut Sink) {
        sink.debug(self);
        assert_eq!(BitString::new(self.unused_bits(), self.raw_bytes()), Ok(*self));
        assert_eq!(self.as_bytes().is_some(), self.unused_bits() == 0);
        assert_eq!(self.is_empty(), self.len() == 0);
        let bits = self.iter();
        assert_eq!(bits.size_hint(), (self.len(), Some(self.len())));
        if self.len() < 200 {
            assert_eq!(bits.len(), self.iter().count());
        }
        assert_eq!(self.bit(0), self.into_iter().next());
        for index in [self.len().wrapping_sub(1), self.len(), self.len() + 1, usize::MAX] {
            assert_eq!(self.bit(index).is_some(), index < self.len());
        }
    }
}

impl Ask for Integer<'_> {
    fn ask(&self, sink: &mut Sink) {
        sink.debug(self);
        self.is_negative().ask(sink);
        self.to_u64().ask(sink);
        self.to_i64().ask(sink);
        u8::try_from(*self).ask(sink);
        u32::try_from(*self).ask(sink);
        usize::try_from(*self).ask(sink);
        i16::try_from(*self).ask(sink);
        isize::try_from(*self).ask(sink);
        let zero = Integer::from_content(&[0]).unwrap();
        assert_eq!(Integer::from_content(self.as_bytes()), Ok(*self));
        assert_eq!(*self < zero, self.is_negative());
    }
}

impl Ask for ObjectIdentifier<'_> {
    fn ask(&self, sink: &mut Sink) {
        sink.debug(self);
        sink.display(self);
        self.arcs().for_each(|arc| arc.ask(sink));
        assert!(self.starts_with(*self) && self.cmp(self).is_eq());
        black_box(*self == "2.5.4.3");
        ObjectIdentifier::from_content(self.as_bytes())
            .map(drop)
            .ask(sink);
        let copy = ObjectIdentifierBuf::from(*self);
        assert!(copy == *self && copy.as_oid() == *self && copy.as_bytes() == self.as_bytes());
        sink.debug(&copy);
        if self.as_bytes().len() < 64 {
            copy.to_string()
                .parse::<ObjectIdentifierBuf>()
                .map(drop)
                .ask(sink);
            let arcs: Vec<_> = self.arcs().collect();
            ObjectIdentifierBuf::from_arcs(&arcs).map(drop).ask(sink);
        }
    }
}

impl Ask for Time {
    fn ask(&self, sink: &mut Sink) {
        sink.debug(self);
        sink.display(self);
        self.is_date().ask(sink);
        self.unix_seconds().ask(sink);
        assert!(self.cmp(self).is_eq());
        match SystemTime::try_from(*self).and_then(Time::try_from) {
            Ok(time) if self.nanosecond < 1_000_000_000 => {
                assert_eq!(time.unix_seconds(), self.unix_seconds())
            }
            _ => {}
        }
    }
}

impl Ask for Element {
    fn ask(&self, sink: &mut Sink) {
        sink.debug(self);
        self.tag().ask(sink);
        self.is_constructed().ask(sink);
        self.is_definite().ask(sink);
        self.descendants().ask(sink);
        self.offset().ask(sink);
        self.header_range().ask(sink);
        self.content_range().ask(sink);
        self.range().ask(sink);
        self.content(&[]).ask(sink);
    }
}

/// The calls that an element has, by itself and in a tree.
macro_rules! elements {
    ($($type:ty;)*) => {
        asks! {
            $($type: tag class is_constructed offset header content octets as_bool as_u64 as_i64 as_integer as_oid
                as_str as_bytes as_bit_string as_time is_null;)*
        }
    };
}

elements! {
    Any<'_>;
    Node<'_, '_>;
}

impl Ask for Tree<'_> {
    fn ask(&self, sink: &mut Sink) {
        sink.debug(self);
        assert_eq!(self.len(), self.nodes().count());
        assert_eq!(self.len(), self.root().descendants().count() + 1);
        self.elements().iter().for_each(|it| it.ask(sink));
        for node in self {
            node.ask(sink);
            let any = node.any();
            any.content_offset().ask(sink);
            assert_eq!(any.octets(), node.octets());
            assert!(node.children().count() <= node.descendants().count());
            black_box(any.reader().is_ok());
            black_box(any == node.any());
        }
        if let Ok(inner) = self.root().parse_content() {
            inner.nodes().for_each(|it| it.ask(sink));
        }
    }
}

impl Ask for dumarewhi::pem::Block<'_> {
    fn ask(&self, sink: &mut Sink) {
        sink.debug(self);
        self.label().ask(sink);
        self.offset().ask(sink);
        self.octets().ask(sink);
        self.clone().into_octets().ask(sink);
    }
}
