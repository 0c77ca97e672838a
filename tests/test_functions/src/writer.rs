//! Tests of the writer: octets of the standard and of openssl, every capacity, contents around each size of a
//! length, and marks in the wrong order.

#[cfg(test)]
mod lists;
#[cfg(test)]
mod records;
#[cfg(test)]
mod sizes;
#[cfg(test)]
mod trees;
#[cfg(test)]
mod values;
