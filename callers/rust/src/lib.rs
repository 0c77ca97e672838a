//! Reads BER and DER (ITU-T X.690), and writes DER: certificates, SNMP, LDAP, Kerberos.
//!
//! ```
//! use dumarewhi::{Error, Tag, Tree};
//!
//! fn main() -> Result<(), Error> {
//!     let tree = Tree::parse_der(b"\x30\x0a\x02\x01\x05\x06\x03\x55\x04\x03\x05\x00")?;
//!     let fields: Vec<_> = tree.root().children().collect();
//!     assert_eq!(fields[0].as_u64()?, 5);
//!     assert_eq!(fields[1].as_oid()?.to_string(), "2.5.4.3");
//!     assert_eq!(fields[2].tag(), Tag::NULL);
//!     Ok(())
//! }
//! ```
//!
//! | To | use |
//! |---|---|
//! | read a whole input, and look at its elements | [`Tree`], [`Node`] |
//! | read field after field | [`Reader`] |
//! | read from a socket, piece by piece | [`Buffer`] |
//! | check, list or count without allocating | [`check_der`], [`list_der`], [`Rules`] |
//! | read one element | [`Any`] |
//! | read certificates | [`x509::Certificate`] |
//! | read CRLs, requests, keys | [`x509`] |
//! | read and write your own types | [`Decode`], [`Encode`] |
//! | write DER | [`Writer`], [`to_vec`] |
//! | convert BER to DER | [`write_der`], [`to_der`] |
//!
//! [`guide`] is for users of der-parser, der and asn1.
//!
//! # What is proved
//!
//! The library `libdumarewhi_c.a` does the work. It is written in Rattle and proved: which inputs it accepts, which
//! elements and values it returns, which errors and broken rules, and which octets it writes. Texts of errors, names
//! and rules are tested. This crate calls it through `dumarewhi.h` and is tested, not proved.
//!
//! The crate itself computes: slices of the input, the steps through a [`Tree`], the depth and the defaults of a
//! [`Reader`], a [`Buffer`], UTF-16 of a BMPString, arcs of identifiers, the order of numbers, and the days of a
//! calendar.
//!
//! # What you might not expect
//!
//! - The content of a constructed element of any class, such as `[0]`, is elements (X.690 8.1.4) of the [`Tree`].
//!   [`Node::parse_content`] reads an encoding inside an OCTET STRING.
//! - Rules that need the ASN.1 type aren't checked: the order of a SET, default values, named bits. By BER the types of
//!   a string's parts aren't either.
//! - Readers don't join a constructed string. [`write_der`] does.
//! - [`Writer::open_set`] keeps the order of its elements; [`Writer::open_set_of`] sorts them. A [`Writer`] also writes
//!   default values. Only [`Writer::finish`] and [`to_vec`] report a buffer that is too small.
//! - Elements are at most [`MAX_DEPTH`] deep. [`Rules::with_max_depth`] allows less.
//!
//! # Features
//!
//! `std` (by default) implements [`std::error::Error`], and has `SystemTime` and `IpAddr`. `alloc` has [`Tree`],
//! [`Buffer`], [`to_vec`] and [`ObjectIdentifierBuf`]. `pem` has the blocks of a text (RFC 7468). Without them, the
//! crate is `no_std` and never allocates.
#![no_std]
#![deny(missing_docs)]
#![deny(unsafe_code)]
// No input makes it panic.
#![deny(clippy::arithmetic_side_effects, clippy::indexing_slicing)]
#![deny(clippy::expect_used, clippy::panic, clippy::unwrap_used)]
#![cfg_attr(test, allow(clippy::arithmetic_side_effects, clippy::indexing_slicing))]
#![cfg_attr(test, allow(clippy::expect_used, clippy::panic, clippy::unwrap_used))]
#![cfg_attr(feature = "std", deny(rustdoc::broken_intra_doc_links))]
#![cfg_attr(docsrs, feature(doc_cfg))]

#[cfg(feature = "alloc")]
extern crate alloc;
#[cfg(any(feature = "std", test))]
extern crate std;

#[macro_use]
mod forward;
mod any;
mod element;
mod error;
mod ffi;
mod identifier;
#[rustfmt::skip]
mod numbers;
#[cfg(feature = "pem")]
pub mod pem;
mod reader;
#[cfg(feature = "alloc")]
mod stream;
mod tag;
mod time;
#[cfg(feature = "alloc")]
mod tree;
mod types;
mod value;
mod write;
mod writer;
pub mod x509;

pub use any::Any;
pub use element::{check_ber, check_der, list_ber, list_der, Found, Rules, MAX_DEPTH};
pub use error::{Error, ErrorKind, Reason, Result};
pub use ffi::Element;
#[cfg(feature = "alloc")]
pub use identifier::ObjectIdentifierBuf;
pub use identifier::{oid_length, oid_octets, oid_of, Arcs, ObjectIdentifier};
pub use numbers::Class;
pub use reader::Reader;
#[cfg(feature = "alloc")]
pub use stream::Buffer;
pub use tag::Tag;
pub use time::{Time, Zone};
#[cfg(feature = "alloc")]
pub use tree::{Children, Descendants, Node, Tree};
pub use types::{Decode, Encode};
pub use value::{BitString, Bits, Integer};
#[cfg(feature = "alloc")]
pub use write::to_der;
pub use write::write_der;
#[cfg(feature = "alloc")]
pub use writer::to_vec;
pub use writer::Writer;

#[cfg(doc)]
#[doc = include_str!("guide.md")]
pub mod guide {}

#[cfg(all(doctest, feature = "pem"))]
#[doc = include_str!("../README.md")]
struct Readme;
