//! What the examples print. Cargo builds them before the tests run.
#![cfg(feature = "std")]
use std::env;
use std::io::Write;
use std::path::PathBuf;
use std::process::{Command, Output, Stdio};

mod shared;

/// The program of an example, beside this test's.
fn program(name: &str) -> Option<PathBuf> {
    let test = env::current_exe().ok()?;
    let program = test.ancestors().nth(2)?.join("examples").join(name);
    if !program.exists() {
        println!("left out: {name} isn't built (cargo test without --test builds it)");
        return None;
    }
    Some(program)
}

fn run(name: &str, input: &[u8]) -> Option<Output> {
    run_with(name, &[], input)
}

fn run_with(name: &str, words: &[&str], input: &[u8]) -> Option<Output> {
    let mut command = Command::new(program(name)?);
    command
        .args(words)
        .stdin(Stdio::piped())
        .stdout(Stdio::piped())
        .stderr(Stdio::piped());
    let mut child = command.spawn().unwrap();
    child.stdin.take().unwrap().write_all(input).unwrap();
    Some(child.wait_with_output().unwrap())
}

/// The lines that an example prints, and whether it ends well.
fn prints(name: &str, input: &[u8], expected: &[&str], well: bool) {
    if let Some(output) = run(name, input) {
        let text = String::from_utf8(output.stdout).unwrap();
        assert_eq!(text.lines().collect::<Vec<_>>(), expected);
        assert_eq!(
            output.status.success(),
            well,
            "{}",
            String::from_utf8_lossy(&output.stderr)
        );
    }
}

/// A get request (RFC 3416) for sysDescr.0, with version 2c and the community `public`.
const REQUEST: &[u8] = &[
    0x30, 0x29, 0x02, 0x01, 0x01, 0x04, 0x06, b'p', b'u', b'b', b'l', b'i', b'c', 0xa0, 0x1c, 0x02, 0x04,
    0x71, 0x68, 0x2a, 0x51, 0x02, 0x01, 0x00, 0x02, 0x01, 0x00, 0x30, 0x0e, 0x30, 0x0c, 0x06, 0x08, 0x2b,
    0x06, 0x01, 0x02, 0x01, 0x01, 0x01, 0x00, 0x05, 0x00,
];

const PRINTED: [&str; 2] = [
    "get version 1 community \"public\" id 1902651985 status 0 index 0",
    "  1.3.6.1.2.1.1.1.0 = null",
];

#[test]
fn snmp_prints_requests() {
    prints("snmp", &REQUEST.repeat(2), &[PRINTED, PRINTED].concat(), true);
}

/// What is written is the message, which was DER.
#[test]
fn snmp_types_are_written_as_they_were() {
    let file = env::temp_dir().join(format!("dumarewhi-snmp-{}", std::process::id()));
    if let Some(output) = run_with("snmp_types", &[file.to_str().unwrap()], REQUEST) {
        let text = String::from_utf8(output.stdout).unwrap();
        let expected =
            "version 1, community \"public\"\n[0] 1902651985, status 0\n1.3.6.1.2.1.1.1.0 = Unspecified\n";
        assert_eq!(text, expected, "{}", String::from_utf8_lossy(&output.stderr));
        let written = std::fs::read(&file).unwrap();
        std::fs::remove_file(&file).unwrap();
        assert_eq!(written, REQUEST);
    }
}

/// A message that isn't one is said, and the next one is read.
#[test]
fn snmp_goes_on_after_a_refused_message() {
    let input = [&[0x30, 0x03, 0x02, 0x01, 0x01], REQUEST].concat();
    let refused = ["refused: an element is missing at offset 5"];
    prints("snmp", &input, &[&refused[..], &PRINTED].concat(), true);
}

#[test]
fn snmp_fails_where_the_stream_is_cut() {
    prints("snmp", &[REQUEST, &REQUEST[..20]].concat(), &PRINTED, false);
}

/// `[2]` in place of the INTEGER that the version is.
#[test]
fn snmp_refuses_a_version_of_another_class() {
    let mut input = REQUEST.to_vec();
    input[2] = 0x82;
    if let Some(output) = run("snmp", &input) {
        let text = String::from_utf8(output.stdout).unwrap();
        let refused = "refused: unexpected tag (expected INTEGER, actual [2]) at offset 2\n";
        assert_eq!((text.as_str(), output.status.success()), (refused, true));
    }
    for name in ["snmp_reply", "snmp_types"] {
        if let Some(output) = run(name, &input) {
            let told = String::from_utf8_lossy(&output.stderr);
            assert!(!output.status.success() && output.stdout.is_empty(), "{name}");
            assert!(told.contains("UnexpectedTag"), "{name}: {told}");
        }
    }
}

/// A newline, and a mark that turns the direction of a text (U+202E), are escaped.
#[test]
fn texts_are_escaped() {
    let hostile = "a\n\u{202e}b".as_bytes();
    let mut input = REQUEST.to_vec();
    input[7..13].copy_from_slice(hostile);
    let printed = PRINTED[0].replace("public", r"a\n\u{202e}b");
    prints("snmp", &input, &[&printed, PRINTED[1]], true);
    let printed = [
        r#"version 1, community "a\n\u{202e}b""#,
        "[0] 1902651985, status 0",
        "1.3.6.1.2.1.1.1.0 = Unspecified",
    ];
    prints("snmp_types", &input, &printed, true);
    let input = [&[0x0c, 6], hostile].concat();
    prints("tree", &input, &[r#"    0 UTF8String "a\n\u{202e}b""#], true);
}

#[test]
fn tree_prints_elements() {
    let input = [
        0x30, 0x0e, 0x02, 0x01, 0x05, 0x06, 0x03, 0x55, 0x04, 0x03, 0xa0, 0x04, 0x0c, 0x02, b'h', b'i', 0x04,
        0x01, 0xff,
    ];
    let expected = [
        "    0 SEQUENCE",
        "    2   INTEGER 5",
        "    5   OBJECT IDENTIFIER 2.5.4.3",
        "   10   [0]",
        "   12     UTF8String \"hi\"",
        "    0 OCTET STRING ff",
    ];
    prints("tree", &input, &expected, true);
}

#[test]
fn count_counts_elements() {
    if let Some(program) = program("count") {
        let file = env::temp_dir().join(format!("dumarewhi-count-{}", std::process::id()));
        std::fs::write(&file, [0x30, 0x04, 0x05, 0x00, 0x05, 0x00].repeat(30_000)).unwrap();
        let output = Command::new(program).arg(&file).output().unwrap();
        std::fs::remove_file(&file).unwrap();
        let expected = "30000 objects, 90000 elements, 180000 octets\n";
        assert_eq!(String::from_utf8_lossy(&output.stdout), expected);
    }
}

/// A request for sysDescr.0 has this answer.
#[test]
fn snmp_reply_answers() {
    if let Some(output) = run("snmp_reply", REQUEST) {
        let mut answer = REQUEST.to_vec();
        answer.truncate(REQUEST.len() - 2);
        answer.extend(b"\x04\x17an example of dumarewhi");
        // The content of each list around the value is 23 octets longer.
        [1, 14, 28, 30].iter().for_each(|at| answer[*at] += 23);
        answer[13] = 0xa2;
        assert!(output.status.success());
        assert_eq!(output.stdout, answer);
    }
    if let Some(output) = run("snmp_reply", &REQUEST[..20]) {
        assert!(!output.status.success() && output.stdout.is_empty());
    }
}

/// The octets that openssl has to sign. That it verifies the request is tested in `callers/test.sh`.
#[test]
fn csr_writes_what_is_signed() {
    let key = env::temp_dir().join(format!("dumarewhi-public-{}", std::process::id()));
    std::fs::write(&key, b"\x30\x02\x05\x00").unwrap();
    if let Some(output) = run_with("csr", &["info", key.to_str().unwrap(), "a.b"], &[]) {
        let expected = b"\x30\x3a\x02\x01\x00\
            \x30\x0e\x31\x0c\x30\x0a\x06\x03\x55\x04\x03\x0c\x03a.b\
            \x30\x02\x05\x00\
            \xa0\x21\x30\x1f\x06\x09\x2a\x86\x48\x86\xf7\x0d\x01\x09\x0e\
            \x31\x12\x30\x10\x30\x0e\x06\x03\x55\x1d\x11\x04\x07\x30\x05\x82\x03a.b";
        assert!(output.status.success());
        assert_eq!(output.stdout, expected);
    }
    std::fs::remove_file(&key).unwrap();
}

/// A certificate for a name, which openssl makes, in PEM.
fn certificate_of(name: &str) -> Option<Vec<u8>> {
    let (subject, names) = (
        format!("/O=Example, Inc./CN={name}"),
        format!("subjectAltName=DNS:www.{name}"),
    );
    let made = shared::made(&[
        "-newkey",
        "ed25519",
        "-set_serial",
        "258",
        "-subj",
        &subject,
        "-addext",
        &names,
    ])?;
    shared::openssl(&["x509", "-inform", "DER", "-outform", "PEM"], &made)
}

/// Those of a bundle whose common name, or name of DNS, is the one that is asked for.
#[test]
fn x509_prints_certificates_of_a_name() {
    let made = certificate_of("one.example").zip(certificate_of("two.example"));
    let bundle = match made {
        Some((one, two)) => [one, two].concat(),
        None => return println!("left out: openssl makes no certificate"),
    };
    let folder = shared::folder();
    let file = folder.join("bundle.pem");
    std::fs::write(&file, bundle).unwrap();
    let file = file.to_str().unwrap();
    for (words, names) in [
        (&[file][..], &["one.example", "two.example"][..]),
        (&["--named", "two.example", file], &["two.example"]),
        (&["--named", "www.one.example", file], &["one.example"]),
        (&[file, "--named", "three.example"], &[]),
    ] {
        let output = match run_with("x509", words, &[]) {
            Some(output) => output,
            None => return,
        };
        let text = String::from_utf8(output.stdout).unwrap();
        let found: Vec<_> = text
            .lines()
            .filter(|line| line.starts_with("subject: "))
            .collect();
        let expected: Vec<_> = names
            .iter()
            .map(|name| format!(r"subject: CN={name},O=Example\, Inc."))
            .collect();
        assert_eq!(
            found,
            expected,
            "{words:?}: {}",
            String::from_utf8_lossy(&output.stderr)
        );
        for name in names {
            let line = format!("extension: 2.5.29.17: DNS:www.{name}");
            assert!(text.lines().any(|it| it == line), "{line} in {text}");
        }
        assert_eq!(text.matches("serial: 0102\n").count(), names.len());
        assert_eq!(
            text.matches("extension: 2.5.29.19 critical: CA true\n").count(),
            names.len()
        );
    }
    std::fs::remove_dir_all(&folder).unwrap();
}
