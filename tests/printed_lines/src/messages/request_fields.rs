//! The fields of a request for a ticket, a line for each.
use der_base::time::ASN1DateTime;
use messages::kerberos::{Principal, Request};
use std::fmt;

/// The lines of a request.
#[derive(Clone, Copy)]
pub struct Requested<'r, 'a>(pub &'r Request<'a>);

impl fmt::Display for Requested<'_, '_> {
    fn fmt<W: fmt::Write>(&self, f: &mut fmt::Formatter<W>) -> fmt::Result {
        let request = self.0;
        f.write_str("version=5\nkind=AS-REQ\n")?;
        write_principal(f, "client", &request.client)?;
        writeln!(f, "realm={}", request.realm.as_bytes().escape_ascii())?;
        write_principal(f, "server", &request.server)?;
        write_time(f, "from", request.from)?;
        write_time(f, "till", Some(request.till))?;
        write_time(f, "renewableTill", request.renewable_till)?;
        for kind in &request.encryption_kinds {
            writeln!(f, "encryption={kind} {}", encryption_name(*kind))?;
        }
        Ok(())
    }
}

/// Writes the components of a name, if there is one, with a slash between them. Octets that aren't
/// printable ASCII are escaped.
fn write_principal<W: fmt::Write>(
    f: &mut fmt::Formatter<W>,
    field: &str,
    name: &Option<Principal<'_>>,
) -> fmt::Result {
    let Some(Principal(components)) = name else {
        return Ok(());
    };
    write!(f, "{field}=")?;
    for (i, component) in components.iter().enumerate() {
        if i > 0 {
            f.write_str("/")?;
        }
        write!(f, "{}", component.as_bytes().escape_ascii())?;
    }
    writeln!(f)
}

/// Writes a time, if there is one.
fn write_time<W: fmt::Write>(
    f: &mut fmt::Formatter<W>,
    field: &str,
    time: Option<ASN1DateTime>,
) -> fmt::Result {
    match time {
        Some(time) => writeln!(f, "{field}={time}"),
        None => Ok(()),
    }
}

/// The name of a kind of encryption (RFC 3961 8, RFC 3962 7, RFC 4757).
fn encryption_name(kind: i32) -> &'static str {
    match kind {
        1 => "des-cbc-crc",
        3 => "des-cbc-md5",
        16 => "des3-cbc-hmac-sha1-kd",
        17 => "aes128-cts-hmac-sha1-96",
        18 => "aes256-cts-hmac-sha1-96",
        23 => "rc4-hmac",
        _ => "unknown",
    }
}
