//! The tests of memory: calls that take none, and calls that take some, as `tools/refused-growths` runs them.

#[cfg(test)]
mod certificate_walk;
#[cfg(test)]
mod kept;
#[cfg(test)]
mod no_memory;
#[cfg(test)]
mod refused_growths;
