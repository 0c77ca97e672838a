//! Contents around each size of a length (X.690 8.1.3.4, 8.1.3.5).
use der_writer::{WriteError, Writer};

/// How many octets an OCTET STRING has, and the headers of it and of a SEQUENCE around it, by `openssl asn1parse`.
const HEADERS: &[(usize, &[u8])] = &[
    (0, b"\x30\x02\x04\x00"),
    (127, b"\x30\x81\x81\x04\x7f"),
    (128, b"\x30\x81\x83\x04\x81\x80"),
    (255, b"\x30\x82\x01\x02\x04\x81\xff"),
    (256, b"\x30\x82\x01\x04\x04\x82\x01\x00"),
    (65535, b"\x30\x83\x01\x00\x03\x04\x82\xff\xff"),
    (65536, b"\x30\x83\x01\x00\x05\x04\x83\x01\x00\x00"),
];

/// The greatest size, and room for headers.
const MOST: usize = 65536 + 16;

/// Octets that differ from their neighbours, so that one that moved is seen.
fn pattern() -> [u8; 65536] {
    let mut octets = [0; 65536];
    for (index, octet) in octets.iter_mut().enumerate() {
        *octet = (index % 251) as u8;
    }
    octets
}

/// Writes a SEQUENCE of an OCTET STRING.
fn write_string(out: &mut [u8], octets: &[u8]) -> Result<usize, WriteError> {
    let mut fields = Writer::new(out);
    let list = fields.open_sequence();
    fields.put_octets(octets);
    fields.close(list);
    fields.finish()
}

/// The same, whose octets are put as elements, in two parts.
fn write_parts(out: &mut [u8], octets: &[u8]) -> Result<usize, WriteError> {
    let (front, behind) = octets.split_at(octets.len() / 3);
    let mut fields = Writer::new(out);
    let list = fields.open_sequence();
    let string = fields.open_octet_string();
    fields.put_elements(front);
    fields.put_elements(behind);
    fields.close(string);
    fields.close(list);
    fields.finish()
}

/// Whether the headers and the octets are written.
fn is_written(out: &[u8], wrote: Result<usize, WriteError>, header: &[u8], octets: &[u8]) -> bool {
    match wrote {
        Ok(size) => {
            size == header.len() + octets.len()
                && &out[..header.len()] == header
                && &out[header.len()..size] == octets
        }
        Err(_) => false,
    }
}

#[test]
fn lengths_have_the_fewest_octets(rt: HostRuntime) {
    let octets = pattern();
    let mut out = [0; MOST];
    for (size, header) in HEADERS {
        let string = &octets[..*size];
        let wrote = write_string(&mut out, string);
        assert!(rt; is_written(&out, wrote, header, string), "{size}");
        let wrote = write_parts(&mut out, string);
        assert!(rt; is_written(&out, wrote, header, string), "{size} in parts");
    }
}

#[test]
fn one_octet_too_few_is_an_error(rt: HostRuntime) {
    let octets = pattern();
    let mut out = [0; MOST];
    for (size, header) in HEADERS {
        let needed = header.len() + *size;
        let string = &octets[..*size];
        let refused = Err(WriteError::NoRoom(needed));
        assert!(rt; write_string(&mut out[..needed - 1], string) == refused, "{size}");
        assert!(rt; write_parts(&mut out[..needed - 1], string) == refused, "{size} in parts");
    }
}
