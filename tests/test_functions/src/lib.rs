//! The tests of libraries that need code. What a row of a table can say is in `rows` or `rows_of_objects`.

mod memory;
mod objects;
mod readers;
mod writer;
