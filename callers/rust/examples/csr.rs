//! Writes a certification request (RFC 2986) in DER to standard output, the part that is signed first:
//!
//! ```sh
//! openssl pkey -in private.pem -pubout -outform DER > key
//! cargo run --example csr info key example.org > info
//! openssl dgst -sha256 -sign private.pem info > signature
//! cargo run --example csr request info signature > request
//! ```
//!
//! The key is an EC key.
use dumarewhi::{to_vec, Result, Tag, Writer};
use std::io::{self, Write};
use std::process::exit;
use std::{env, fs};

const COMMON_NAME: &[u64] = &[2, 5, 4, 3];
const EXTENSION_REQUEST: &[u64] = &[1, 2, 840, 113549, 1, 9, 14];
const SUBJECT_ALT_NAME: &[u64] = &[2, 5, 29, 17];
const ECDSA_WITH_SHA256: &[u64] = &[1, 2, 840, 10045, 4, 3, 2];

fn main() -> io::Result<()> {
    let words: Vec<_> = env::args().skip(1).collect();
    let words: Vec<_> = words.iter().map(String::as_str).collect();
    let octets = match words[..] {
        ["info", key, host] => info(&fs::read(key)?, host)?,
        ["request", info, signature] => request(&fs::read(info)?, &fs::read(signature)?)?,
        _ => {
            eprintln!("csr info KEY HOST, or csr request INFO SIGNATURE");
            exit(2)
        }
    };
    io::stdout().write_all(&octets)
}

/// CertificationRequestInfo ::= SEQUENCE {
///     version INTEGER { v1(0) }, subject Name, subjectPKInfo SubjectPublicKeyInfo,
///     attributes [0] IMPLICIT SET OF SEQUENCE { type OBJECT IDENTIFIER, values SET } }
fn info(key: &[u8], host: &str) -> Result<Vec<u8>> {
    to_vec(|w| {
        w.open_sequence(|w| {
            w.put_u64(0);
            name(w, host)?;
            w.put_elements(key);
            w.open_tagged(Tag::context(0), |w| {
                w.open_sequence(|w| {
                    w.put_arcs(EXTENSION_REQUEST)?;
                    w.open_set(|w| extensions(w, host))
                })
            })
        })
    })
}

/// Name ::= SEQUENCE OF SET OF SEQUENCE { type OBJECT IDENTIFIER, value }
fn name(w: &mut Writer<'_>, text: &str) -> Result<()> {
    w.open_sequence(|w| {
        w.open_set(|w| {
            w.open_sequence(|w| {
                w.put_arcs(COMMON_NAME)?;
                w.put_utf8(text);
                Ok(())
            })
        })
    })
}

/// Extensions ::= SEQUENCE OF SEQUENCE { extnID OBJECT IDENTIFIER, extnValue OCTET STRING } with one subjectAltName:
/// SEQUENCE OF GeneralName, with one dNSName [2] IMPLICIT IA5String
fn extensions(w: &mut Writer<'_>, host: &str) -> Result<()> {
    w.open_sequence(|w| {
        w.open_sequence(|w| {
            w.put_arcs(SUBJECT_ALT_NAME)?;
            w.open_octet_string(|w| w.open_sequence(|w| w.implicit(Tag::context(2)).put_ia5(host)))
        })
    })
}

/// CertificationRequest ::= SEQUENCE { certificationRequestInfo, signatureAlgorithm, signature BIT STRING }
fn request(info: &[u8], signature: &[u8]) -> Result<Vec<u8>> {
    to_vec(|w| {
        w.open_sequence(|w| {
            w.put_elements(info);
            w.open_sequence(|w| w.put_arcs(ECDSA_WITH_SHA256))?;
            w.put_bits(0, signature);
            Ok(())
        })
    })
}
