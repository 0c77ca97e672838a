//! Counts all elements of a large file in DER without a tree: `cargo run --release --example count FILE`.
use dumarewhi::{Buffer, Rules};
use std::fs::File;
use std::io::{self, Read};

fn main() -> io::Result<()> {
    let path = std::env::args()
        .nth(1)
        .ok_or_else(|| io::Error::new(io::ErrorKind::InvalidInput, "count FILE"))?;
    let mut file = File::open(path)?;
    let mut buffer = Buffer::new(Rules::DER).with_limit(usize::MAX);
    let mut piece = vec![0; 1 << 16];
    let (mut objects, mut elements) = (0u64, 0u64);
    loop {
        let length = file.read(&mut piece)?;
        if length == 0 {
            break;
        }
        buffer.feed(&piece[..length]);
        while let Some(octets) = buffer.next_octets()? {
            elements += Rules::DER.check(octets)?.elements as u64;
            objects += 1;
        }
    }
    buffer.finish()?;
    println!(
        "{objects} objects, {elements} elements, {} octets",
        buffer.position()
    );
    Ok(())
}
