//! The tests of lines that are as wide as a terminal, of what is said of inputs that are refused, of whole runs, and of
//! private keys.

#[cfg(test)]
mod cut_lines;
#[cfg(test)]
mod refused_inputs;
#[cfg(test)]
mod secrets;
#[cfg(test)]
mod whole_runs;
