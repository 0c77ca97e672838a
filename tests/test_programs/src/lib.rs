//! The tests of programs and of what they are made of that need code.

mod cli;
#[cfg(test)]
mod ldap_stream;
