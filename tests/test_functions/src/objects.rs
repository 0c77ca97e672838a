//! Tests of objects and errors that need code: want of memory, visitors and writers of
//! one's own, and values that are made. What rows say of objects is in `rows_of_objects`, and of
//! errors in `rows`.

#[cfg(test)]
mod accessors;
#[cfg(test)]
mod constructors;
#[cfg(test)]
mod errors;
#[cfg(test)]
mod from_any;
#[cfg(test)]
mod printer;
#[cfg(test)]
mod visits;
#[cfg(test)]
mod writer;
