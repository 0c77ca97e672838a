//! Blocks of PEM: the certificates of the machine, and texts that RFC 7468, RFC 1421 and RFC 4648 decide.
#![cfg(all(feature = "std", feature = "pem"))]
use dumarewhi::{pem, Error, ErrorKind, Reason};
use shared::{from_pem, STORE};

mod shared;

/// The label, the offset and the octets of a block, or the reason and the offset of an error.
type Found<'t> = Result<(&'t str, usize, Vec<u8>), (Reason, usize)>;

fn found(text: &str) -> Vec<Found<'_>> {
    let known = |error: Error| (error.reason().unwrap(), error.offset());
    pem::blocks(text.as_bytes())
        .map(|block| {
            block
                .map(|it| (it.label(), it.offset(), it.into_octets()))
                .map_err(known)
        })
        .collect()
}

#[test]
fn certificates_of_the_machine() {
    let text = match std::fs::read_to_string(STORE) {
        Ok(text) => text,
        Err(_) => return println!("left out: there is no {STORE}"),
    };
    let blocks: Vec<_> = pem::blocks(text.as_bytes()).map(Result::unwrap).collect();
    assert!(blocks.iter().all(|block| block.label() == "CERTIFICATE"));
    assert!(blocks
        .iter()
        .all(|block| text[block.offset()..].starts_with("-----BEGIN CERTIFICATE-----")));
    let octets: Vec<_> = blocks.into_iter().map(pem::Block::into_octets).collect();
    assert!(octets.len() > 10 && octets == from_pem(&text));
}

/// The octets 05 00 are BQA= (RFC 4648 4).
const NULL: &str = "-----BEGIN A NULL-----\nBQA=\n-----END A NULL-----\n";

#[test]
fn blocks_and_text_around_them() {
    let null = |offset| Ok(("A NULL", offset, vec![5, 0]));
    assert_eq!(found(""), []);
    assert_eq!(found("no block"), []);
    assert_eq!(found(NULL), [null(0)]);
    assert_eq!(
        found(&format!("a text:\n{NULL}and\n{NULL}.")),
        [null(8), null(8 + NULL.len() + 4)]
    );
    assert_eq!(found(&NULL.replace('\n', "\r\n")), [null(0)]);
    let mut blocks = pem::blocks(NULL.as_bytes());
    let block = blocks.next().unwrap().unwrap();
    assert_eq!((block.octets(), block.as_ref()), (&[5, 0][..], &[5, 0][..]));
    assert!(blocks.next().is_none() && blocks.next().is_none());
}

/// A block that can't be decoded is followed by others. One that has no end is the last one.
#[test]
fn errors() {
    let wrong = NULL.replace("BQA=", "BQ!=");
    let expected = [
        Err((Reason::PEM_BASE64, 0)),
        Ok(("A NULL", wrong.len(), vec![5, 0])),
    ];
    assert_eq!(found(&format!("{wrong}{NULL}")), expected);
    let encrypted = NULL.replace(
        "BQA=",
        "Proc-Type: 4,ENCRYPTED\nDEK-Info: DES-CBC,0011223344556677\n\nBQA=",
    );
    assert_eq!(found(&encrypted), [Err((Reason::PEM_ENCRYPTED, 0))]);
    let other = NULL.replace("END A NULL", "END NULL");
    assert_eq!(
        found(&format!("\n{other}{NULL}")),
        [Err((Reason::PEM_LABELS_DIFFER, 1))]
    );
    for end in 23..NULL.len() - 1 {
        assert_eq!(found(&NULL[..end]), [Err((Reason::PEM_NO_END, 0))], "{end}");
    }
    let error = pem::blocks(wrong.as_bytes()).next().unwrap().unwrap_err();
    assert_eq!(error.kind(), ErrorKind::Malformed(Reason::PEM_BASE64));
    assert_eq!(error.to_string(), "invalid base64 at offset 0");
}
