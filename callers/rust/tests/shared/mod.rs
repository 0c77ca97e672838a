//! What tests share: openssl, the certificates of the machine, and damaged inputs.
#![allow(dead_code)]
use std::io::Write;
use std::path::Path;
use std::process::{Command, Stdio};
use std::sync::atomic::{AtomicUsize, Ordering};
use std::{env, fs, thread};

pub const STORE: &str = "/etc/ssl/certs/ca-certificates.crt";

/// Runs openssl with this input, if the machine has it.
pub fn openssl(arguments: &[&str], input: &[u8]) -> Option<Vec<u8>> {
    let mut command = Command::new("openssl");
    command
        .args(arguments)
        .stdin(Stdio::piped())
        .stdout(Stdio::piped())
        .stderr(Stdio::null());
    let mut child = command.spawn().ok()?;
    let mut stdin = child.stdin.take()?;
    let input = input.to_vec();
    let writer = thread::spawn(move || stdin.write_all(&input));
    let output = child.wait_with_output().ok()?;
    let _ = writer.join();
    output.status.success().then_some(output.stdout)
}

/// The octets of each certificate in a text with PEM (RFC 7468).
pub fn from_pem(text: &str) -> Vec<Vec<u8>> {
    let end = "-----END CERTIFICATE-----";
    let parts = text.split("-----BEGIN CERTIFICATE-----").skip(1);
    parts
        .filter_map(|part| part.split(end).next())
        .map(from_base64)
        .collect()
}

fn from_base64(text: &str) -> Vec<u8> {
    const DIGITS: &str = "ABCDEFGHIJKLMNOPQRSTUVWXYZabcdefghijklmnopqrstuvwxyz0123456789+/";
    let digits: Vec<_> = text.chars().filter_map(|it| DIGITS.find(it)).collect();
    let octets = |group: &[usize]| {
        let number = group.iter().fold(0, |number, digit| number << 6 | digit) << (6 * (4 - group.len()));
        (1..group.len())
            .map(move |at| (number >> (24 - 8 * at)) as u8)
            .collect::<Vec<_>>()
    };
    digits.chunks(4).flat_map(octets).collect()
}

/// The certificates of the machine.
pub fn store() -> Vec<Vec<u8>> {
    match fs::read_to_string(STORE) {
        Ok(text) => from_pem(&text),
        Err(_) => {
            println!("left out: there is no {STORE} (the package ca-certificates has it)");
            Vec::new()
        }
    }
}

/// A certificate that openssl makes with these words, of a subject with a name and a number.
pub fn made(words: &[&str]) -> Option<Vec<u8>> {
    let folder = folder();
    let file = folder.join("key.pem");
    let mut arguments = vec!["req", "-x509", "-nodes", "-days", "36500", "-outform", "DER"];
    arguments.extend(words);
    arguments.extend(["-keyout", file.to_str()?]);
    let made = openssl(&arguments, b"");
    let _ = fs::remove_dir_all(&folder);
    made
}

/// A fresh folder.
pub fn folder() -> std::path::PathBuf {
    static FOLDERS: AtomicUsize = AtomicUsize::new(0);
    let number = FOLDERS.fetch_add(1, Ordering::Relaxed);
    let folder = env::temp_dir().join(format!("dumarewhi-{}-{number}", std::process::id()));
    fs::create_dir_all(&folder).unwrap();
    folder
}

/// What a program of C prints, compiled over the archive that this crate is linked with, if there is a compiler.
pub fn run_c(source: &str, input: &[u8]) -> Option<String> {
    let archive = Path::new(env!("DUMAREWHI_ARCHIVE"));
    let callers = Path::new(env!("CARGO_MANIFEST_DIR")).join("..");
    let folder = folder();
    let (program, file) = (folder.join("program"), folder.join("input"));
    fs::write(&file, input).unwrap();
    let mut compiler = Command::new("cc");
    compiler.arg("-std=c99").arg("-I").arg(callers.join("c/include"));
    compiler
        .arg(callers.join(source))
        .arg(archive)
        .arg("-o")
        .arg(&program);
    let compiled = compiler.status();
    if compiled.is_err() {
        println!("left out: there is no cc");
        return None;
    }
    assert!(compiled.unwrap().success());
    let output = Command::new(&program).arg(&file).output().unwrap();
    assert!(output.status.success());
    fs::remove_dir_all(&folder).unwrap();
    Some(String::from_utf8(output.stdout).unwrap())
}

/// Numbers of the generator xorshift64 (Marsaglia 2003), the same ones at each run.
pub struct Random(pub u64);

impl Random {
    fn next(&mut self) -> u64 {
        self.0 ^= self.0 << 13;
        self.0 ^= self.0 >> 7;
        self.0 ^= self.0 << 17;
        self.0
    }

    pub fn below(&mut self, end: usize) -> usize {
        (self.next() % end as u64) as usize
    }

    /// An octet, mostly one that elements are made of.
    pub fn octet(&mut self) -> u8 {
        const LIKELY: &[u8] = &[
            0, 1, 2, 3, 4, 5, 6, 7, 10, 12, 13, 16, 18, 19, 22, 23, 24, 26, 28, 30, 0x1f, 0x30, 0x31, 0x24,
            0x61, 0x80, 0x81, 0x82, 0xa0, 0xa3, 0xbf, 0xff,
        ];
        match self.below(3) {
            0 => self.next() as u8,
            _ => LIKELY[self.below(LIKELY.len())],
        }
    }
}

/// Changes, drops, doubles or inserts some octets, or cuts the input.
pub fn damaged(input: &[u8], random: &mut Random) -> Vec<u8> {
    let mut octets = input.to_vec();
    for _ in 0..1 + random.below(4) {
        if octets.is_empty() {
            break;
        }
        let at = random.below(octets.len());
        match random.below(6) {
            0 => octets[at] = random.octet(),
            1 => octets[at] ^= 1 << random.below(8),
            2 => drop(octets.remove(at)),
            3 => octets.insert(at, random.octet()),
            4 => {
                let piece = octets[at..(at + 1 + random.below(9)).min(octets.len())].to_vec();
                octets.splice(at..at, piece);
            }
            _ => octets.truncate(at),
        }
    }
    octets
}
