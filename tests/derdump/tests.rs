//! The tests of what `derdump` prints, writes and tells, as a module of the program. No file of the crate declares it, since
//! the gate would prove it: `tools/quick` does so in a copy.

mod real_inputs;
mod refused_growths;
mod runs;
