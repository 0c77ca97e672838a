//! Prints the fields of certificates (RFC 5280) in DER or PEM: `cargo run --features pem --example x509 FILE..`.
//! `--named TEXT` prints only those with that commonName or DNS name.
use dumarewhi::x509::{Certificate, Extension, GeneralNames, Value};
use dumarewhi::{check_der, oid, pem, ObjectIdentifier};
use std::error::Error;
use std::process::exit;
use std::{env, fs};

const COMMON_NAME: ObjectIdentifier<'static> = oid!(2, 5, 4, 3);

fn main() {
    let mut words: Vec<_> = env::args().skip(1).collect();
    let named = match words.iter().position(|word| word == "--named") {
        Some(at) if at + 1 < words.len() => words.drain(at..at + 2).nth(1),
        _ => None,
    };
    let mut wrong = words.is_empty();
    for path in words {
        if let Err(error) = print_file(&path, named.as_deref()) {
            eprintln!("{path}: {error}");
            wrong = true;
        }
    }
    exit(wrong.into())
}

/// Prints the certificates of a file, up to the first error.
fn print_file(path: &str, named: Option<&str>) -> Result<(), Box<dyn Error>> {
    for octets in encodings(fs::read(path)?)? {
        let certificate = Certificate::from_der(&octets)?;
        if named.map_or(true, |name| has_name(&certificate, name)) {
            print(&certificate);
        }
    }
    Ok(())
}

/// The octets of a certificate in DER, or of each one in PEM (RFC 7468). DER is tried first, since a text in it may
/// hold PEM.
fn encodings(file: Vec<u8>) -> Result<Vec<Vec<u8>>, Box<dyn Error>> {
    if check_der(&file).is_ok() {
        return Ok(vec![file]);
    }
    let blocks = pem::blocks(&file).collect::<Result<Vec<_>, _>>()?;
    let is_pem = !blocks.is_empty();
    let certificates = blocks.into_iter().filter(|it| it.label() == "CERTIFICATE");
    let certificates: Vec<_> = certificates.map(pem::Block::into_octets).collect();
    match (is_pem, file.first()) {
        (true, _) if certificates.is_empty() => Err("no block has the label CERTIFICATE".into()),
        (true, _) => Ok(certificates),
        (false, Some(0x30)) => Ok(vec![file]),
        _ => Err("neither DER nor PEM".into()),
    }
}

fn has_name(it: &Certificate<'_>, name: &str) -> bool {
    let common_name = it
        .subject()
        .find(COMMON_NAME)
        .and_then(|attribute| attribute.as_str());
    let alternative = it.extensions().subject_alt_name().ok().flatten();
    common_name == Some(name) || alternative.map_or(false, |names| names.dns_names().any(|it| it == name))
}

fn print(it: &Certificate<'_>) {
    println!("version: {}", it.version());
    println!("serial: {}", hex(it.serial_number().as_bytes()));
    println!("signature: {}", it.signature_algorithm().identifier());
    println!("issuer: {}", it.issuer());
    println!("not before: {}", it.not_before());
    println!("not after: {}", it.not_after());
    println!("subject: {}", it.subject());
    let key = it.public_key();
    print!("key: {}", key.algorithm().identifier());
    key.curve().iter().for_each(|curve| print!(", {curve:?}"));
    key.key_size().iter().for_each(|bits| print!(", {bits} bits"));
    println!();
    for extension in it.extensions() {
        let critical = if extension.is_critical() { " critical" } else { "" };
        println!(
            "extension: {}{critical}: {}",
            extension.identifier(),
            value(&extension)
        );
    }
    println!("sha-256: {}", hex(&it.fingerprint()));
}

fn value(extension: &Extension<'_>) -> String {
    match extension.value() {
        Ok(Value::BasicConstraints(it)) => match it.path_length {
            Some(length) => format!("CA {}, path length {length}", it.ca),
            None => format!("CA {}", it.ca),
        },
        Ok(Value::KeyUsage(usage)) => usage.names().collect::<Vec<_>>().join(", "),
        Ok(Value::ExtendedKeyUsage(it)) => it.iter().map(|it| it.to_string()).collect::<Vec<_>>().join(", "),
        Ok(Value::SubjectAltName(names) | Value::IssuerAltName(names)) => general_names(names),
        Ok(Value::SubjectKeyIdentifier(octets)) => hex(octets),
        Ok(Value::AuthorityKeyIdentifier(it)) => it.key_identifier.map_or_else(String::new, hex),
        Ok(_) => hex(extension.octets()),
        Err(error) => format!("({error}) {}", hex(extension.octets())),
    }
}

fn general_names(names: GeneralNames<'_>) -> String {
    names
        .iter()
        .map(|name| name.to_string())
        .collect::<Vec<_>>()
        .join(", ")
}

fn hex(octets: &[u8]) -> String {
    octets.iter().map(|octet| format!("{octet:02x}")).collect()
}
