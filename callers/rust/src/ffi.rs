//! The calls of `dumarewhi.h`. All `unsafe` of this crate is here.
//!
//! Each call passes the pointer and length of a slice, or the pointer of a reference: never null, aligned, and valid
//! for that length. What is written is borrowed by `&mut`, so nothing else that is passed overlaps it. The depth is at
//! most MAX_DEPTH, as the callee clamps larger values to it. No call keeps a pointer, but in an `Octets` or a `Cursor`
//! that it writes, which are parts of the octets that were passed (it is proved), and borrow them here.
#![allow(unsafe_code)]

/// Structs of the library, with their names in `dumarewhi.h`, and for tests their layouts.
macro_rules! structs {
    ($($(#[$doc:meta])* $visible:vis struct $name:ident$(<$a:lifetime>)? as $of_c:ident {
        $($field:ident: $type:ty,)*
    })*) => {
        $($(#[$doc])*
        #[repr(C)]
        #[derive(Clone, Copy, Debug, Default, PartialEq, Eq, Hash)]
        $visible struct $name$(<$a>)? {
            $(pub(crate) $field: $type,)*
        }

        #[cfg(test)]
        impl$(<$a>)? $name$(<$a>)? {
            pub(crate) fn rows() -> Rows {
                tests::layout!(Self, $of_c, [$($field),*])
            }
        })*
    };
}

/// Calls that read an input: one for each line, with its name here and what it reads.
macro_rules! reads {
    ($(fn $call:ident() as $name:ident -> $type:ty;)*) => {
        extern "C" {
            $(fn $call<'a>(i: *const u8, n: usize, to: *mut $type, fault: *mut Fault) -> u32;)*
        }

        $(#[allow(clippy::needless_lifetimes)]
        pub(crate) fn $name<'a>(input: &'a [u8]) -> Result<$type> {
            // SAFETY: as in the module above.
            value_or_fault(|to, fault| unsafe { $call(input.as_ptr(), input.len(), to, fault) })
                .map_err(|fault| Error::of_input(fault, input))
        })*
    };
}

/// Calls that take the next item of a list: one for each line, with its name here and what an item is.
macro_rules! items {
    ($(fn $call:ident() as $name:ident -> $type:ty;)*) => {
        extern "C" {
            $(fn $call<'a>(list: *mut Octets<'a>, item: *mut $type) -> u32;)*
        }

        $(pub(crate) fn $name<'a>(list: &mut Octets<'a>) -> Option<$type> {
            // SAFETY: as in the module above.
            let (item, found) = written(|to| unsafe { $call(list, to) });
            (found != 0).then_some(item)
        })*
    };
}

/// Calls that read the next field: one for each line, with its name here and what it reads.
macro_rules! fields {
    ($(fn $call:ident() as $name:ident -> $type:ty;)*) => {
        extern "C" {
            $(fn $call<'a>(c: *mut Cursor<'a>, to: *mut $type, fault: *mut Fault) -> u32;)*
        }

        impl<'a> Cursor<'a> {
            $(pub(crate) fn $name(&mut self) -> Result<$type, Fault> {
                // SAFETY: as in the module above.
                value_or_fault(|to, fault| unsafe { $call(self, to, fault) })
            })*
        }
    };
}

/// Calls with a writer: one for each line, with its name here. What is behind a semicolon is the items of a slice,
/// which is passed as its pointer and length. A number that is returned is that of an error, or 0.
macro_rules! puts {
    ($(fn $call:ident($($it:ident: $type:ty),* $(; $slice:ident: $item:ty)?) as $name:ident $(-> $result:ty)?;)*) => {
        extern "C" {
            $(fn $call(w: *mut WriterState, $($it: $type,)* $($slice: *const $item, n: usize)?) $(-> $result)?;)*
        }

        impl Fields<'_> {
            $(pub(crate) fn $name(&mut self, $($it: $type,)* $($slice: &[$item])?) $(-> $result)? {
                // SAFETY: as in the module above.
                unsafe { $call(&mut self.state, $($it,)* $($slice.as_ptr(), $slice.len())?) }
            })*
        }
    };
}

mod cursor;
#[allow(dead_code)]
#[rustfmt::skip]
mod header;
#[cfg(feature = "pem")]
mod pem;
mod writer;
mod x509;

use crate::{Error, Result};
#[cfg(feature = "alloc")]
use alloc::vec::Vec;
use core::fmt;
use core::hash::{Hash, Hasher};
use core::marker::PhantomData;
use core::mem::MaybeUninit;
pub use header::Element;
pub(crate) use header::*;
#[cfg(feature = "pem")]
pub(crate) use pem::*;
pub(crate) use writer::*;
pub(crate) use x509::*;

/// A part of an input.
#[repr(C)]
#[derive(Clone, Copy)]
pub(crate) struct Octets<'a> {
    octets: *const u8,
    length: usize,
    input: PhantomData<&'a [u8]>,
}

// SAFETY: it is a `&[u8]`.
unsafe impl Send for Octets<'_> {}

// SAFETY: it is a `&[u8]`.
unsafe impl Sync for Octets<'_> {}

impl<'a> Octets<'a> {
    pub(crate) const fn of(octets: &'a [u8]) -> Octets<'a> {
        Octets {
            octets: octets.as_ptr(),
            length: octets.len(),
            input: PhantomData,
        }
    }

    /// The octets. An empty part may point anywhere.
    pub(crate) fn get(self) -> &'a [u8] {
        match self.length {
            0 => &[],
            // SAFETY: see above.
            length => unsafe { core::slice::from_raw_parts(self.octets, length) },
        }
    }
}

#[cfg(test)]
impl Octets<'_> {
    fn rows() -> Rows {
        tests::layout!(Self, dm_octets, [octets, length])
    }
}

impl Default for Octets<'_> {
    fn default() -> Self {
        Octets::of(&[])
    }
}

impl PartialEq for Octets<'_> {
    fn eq(&self, other: &Self) -> bool {
        self.get() == other.get()
    }
}

impl Eq for Octets<'_> {}

impl Hash for Octets<'_> {
    fn hash<H: Hasher>(&self, state: &mut H) {
        self.get().hash(state);
    }
}

impl fmt::Debug for Octets<'_> {
    fn fmt(&self, f: &mut fmt::Formatter<'_>) -> fmt::Result {
        self.get().fmt(f)
    }
}

impl<'a> From<Octets<'a>> for &'a [u8] {
    fn from(octets: Octets<'a>) -> &'a [u8] {
        octets.get()
    }
}

/// Of a string type that the library has read: its octets are UTF-8.
impl<'a> From<Octets<'a>> for &'a str {
    fn from(octets: Octets<'a>) -> &'a str {
        core::str::from_utf8(octets.get()).unwrap_or_default()
    }
}

/// Lists the first element and those inside it: as many as there is room for.
fn list_at(der: bool, i: &[u8], depth: usize, elements: *mut Element, room: usize) -> Outcome {
    let call = if der { dm_parse_der } else { dm_parse_ber };
    // SAFETY: see above. There is room for so many elements, and the callee only writes there.
    written(|to| unsafe { call(i.as_ptr(), i.len(), depth, elements, room, to) }).0
}

/// Lists the first element and those inside it in a slice.
pub(crate) fn list(der: bool, input: &[u8], max_depth: usize, elements: &mut [Element]) -> Outcome {
    list_at(der, input, max_depth, elements.as_mut_ptr(), elements.len())
}

/// Lists the first element and those inside it in the capacity of a vector.
#[cfg(feature = "alloc")]
pub(crate) fn list_in_vec(der: bool, input: &[u8], max_depth: usize, elements: &mut Vec<Element>) -> Outcome {
    elements.clear();
    let room = elements.capacity();
    let outcome = list_at(der, input, max_depth, elements.as_mut_ptr(), room);
    if outcome.status == OK {
        // SAFETY: if it returns OK, the callee has written the first `room` of them.
        unsafe { elements.set_len(outcome.elements.min(room)) };
    }
    outcome
}

/// Checks the first element and counts those inside it.
pub(crate) fn check(der: bool, input: &[u8], max_depth: usize) -> Outcome {
    let call = if der { dm_check_der } else { dm_check_ber };
    // SAFETY: see above.
    written(|to| unsafe { call(input.as_ptr(), input.len(), max_depth, to) }).0
}

/// Finds the first element by its header.
pub(crate) fn first(der: bool, input: &[u8]) -> (Outcome, Element) {
    let call = if der { dm_first_der } else { dm_first_ber };
    let mut element = Element::default();
    // SAFETY: see above.
    let (outcome, _) = written(|to| unsafe { call(input.as_ptr(), input.len(), &mut element, to) });
    (outcome, element)
}

/// Writes the elements of the input to a slice as DER writes them.
pub(crate) fn write_der(i: &[u8], out: &mut [u8]) -> Outcome {
    // SAFETY: see above.
    written(|to| unsafe { dm_write_der(i.as_ptr(), i.len(), out.as_mut_ptr(), out.len(), to) }).0
}

// Each of these writes a text to a slice, and returns the length of the whole text.

pub(crate) fn error_text(error: u32, text: &mut [u8]) -> usize {
    // SAFETY: see above.
    unsafe { dm_error_text(error, text.as_mut_ptr(), text.len()) }
}

pub(crate) fn fault_text(fault: &Fault, text: &mut [u8]) -> usize {
    // SAFETY: see above.
    unsafe { dm_fault_text(fault, text.as_mut_ptr(), text.len()) }
}

pub(crate) fn tag_text(tag_class: u8, number: u32, text: &mut [u8]) -> usize {
    // SAFETY: see above.
    unsafe { dm_tag_text(tag_class, number, text.as_mut_ptr(), text.len()) }
}

/// In ASCII, or in UTF-8.
pub(crate) fn name_text(utf8: bool, name: &[u8], text: &mut [u8]) -> usize {
    let call = if utf8 { dm_name_utf8 } else { dm_name_text };
    // SAFETY: see above.
    unsafe { call(name.as_ptr(), name.len(), text.as_mut_ptr(), text.len()) }
}

/// The dotted text of an identifier, or the number of an error.
pub(crate) fn read_oid(i: &[u8], text: &mut [u8]) -> Result<usize, u32> {
    // SAFETY: see above.
    value_or_error(|to| unsafe { dm_read_oid(i.as_ptr(), i.len(), text.as_mut_ptr(), text.len(), to) })
}

/// The number that content octets spell, or the number of an error.
macro_rules! numbers {
    ($($name:ident: $call:ident, $type:ty;)*) => {
        $(pub(crate) fn $name(content: &[u8]) -> Result<$type, u32> {
            // SAFETY: see above.
            value_or_error(|to| unsafe { $call(content.as_ptr(), content.len(), to) })
        })*
    };
}

numbers! {
    read_i64: dm_read_i64, i64;
    read_u64: dm_read_u64, u64;
}

/// Whether content octets are a text of a string type, or the number of an error.
pub(crate) fn check_text(number: u32, content: &[u8]) -> Result<(), u32> {
    // SAFETY: see above.
    value_or_error(|_: *mut ()| unsafe { dm_check_text(number, content.as_ptr(), content.len()) })
}

pub(crate) fn sha256(input: &[u8]) -> [u8; 32] {
    // SAFETY: see above.
    let (digest, ()) = written(|to| unsafe { dm_sha256(input.as_ptr(), input.len(), to) });
    digest.octets
}

/// What a call writes, and what it returns.
fn written<T: Default, R>(call: impl FnOnce(*mut T) -> R) -> (T, R) {
    let mut value = T::default();
    let returned = call(&mut value);
    (value, returned)
}

/// What a call writes, or the number of an error that it returns.
fn value_or_error<T: Default>(call: impl FnOnce(*mut T) -> u32) -> Result<T, u32> {
    match written(call) {
        (value, 0) => Ok(value),
        (_, error) => Err(error),
    }
}

/// What a call writes, or its fault.
fn value_or_fault<T: Default>(call: impl FnOnce(*mut T, *mut Fault) -> u32) -> Result<T, Fault> {
    let (mut value, mut fault) = (T::default(), MaybeUninit::uninit());
    match call(&mut value, fault.as_mut_ptr()) {
        OK => Ok(value),
        // SAFETY: each call writes the fault, whatever it returns.
        _ => Err(unsafe { fault.assume_init() }),
    }
}

#[cfg(test)]
use tests::Rows;
#[cfg(test)]
mod tests;
