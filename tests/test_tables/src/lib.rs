//! Tables of tests as data: files of rows, each an input and what calls answer on it, and the run of a program that
//! tries them.
//!
//! A file has a row a line. Its fields stand between bars: an input, the answer, and a name.
//!
//! ```text
//! # Numbers of four octets
//! [parse_ber_u32, parse_der_u32]
//! 02 01 05 ff | read 5 rest ff | a number and what follows it
//! ```
//!
//! A line in brackets names the calls that are tried on each row below it. A line that begins with `#` is a remark.

pub mod fault;
pub mod octets;
pub mod run;
pub mod table;
