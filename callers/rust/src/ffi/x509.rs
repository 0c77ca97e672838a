//! The calls that read certificates, lists of revoked ones, requests and keys.
use super::*;
use crate::numbers::ExtensionKind;

/// Writes the numbers of the rules that a certificate or a CRL breaks to a slice, and returns how many there are.
pub(crate) fn broken_rules(of_list: bool, input: &[u8], rules: &mut [u32]) -> Result<usize> {
    let call = if of_list {
        dm_broken_crl_rules
    } else {
        dm_broken_rules
    };
    // SAFETY: as in the module above.
    value_or_fault(|all, fault| unsafe {
        call(
            input.as_ptr(),
            input.len(),
            rules.as_mut_ptr(),
            rules.len(),
            all,
            fault,
        )
    })
    .map_err(|fault| Error::of_input(fault, input))
}

pub(crate) fn rule_text(rule: u32, text: &mut [u8]) -> usize {
    // SAFETY: as in the module above.
    unsafe { dm_rule_text(rule, text.as_mut_ptr(), text.len()) }
}

pub(crate) fn rule_kind(rule: u32) -> u32 {
    // SAFETY: as in the module above.
    unsafe { dm_rule_kind(rule) }
}

pub(crate) fn read_null_extension(input: &[u8]) -> Result<()> {
    // SAFETY: as in the module above.
    value_or_fault(|_, fault| unsafe { dm_read_null_extension(input.as_ptr(), input.len(), fault) })
        .map_err(|fault| Error::of_input(fault, input))
}

pub(crate) fn has_unknown_critical(extensions: &[u8]) -> bool {
    // SAFETY: as in the module above.
    unsafe { dm_has_unknown_critical(extensions.as_ptr(), extensions.len()) != 0 }
}

pub(crate) fn is_valid_at(certificate: &CertificateFields<'_>, seconds: u64) -> bool {
    // SAFETY: as in the module above.
    unsafe { dm_is_valid_at(certificate, seconds) != 0 }
}

pub(crate) fn key_type(algorithm: &AlgorithmFields<'_>, key: &BitsFields<'_>) -> KeyKindFields {
    // SAFETY: as in the module above.
    written(|to| unsafe { dm_key_type(algorithm, key, to) }).0
}

pub(crate) fn public_key_type(key: &PublicKeyFields<'_>) -> KeyKindFields {
    // SAFETY: as in the module above.
    written(|to| unsafe { dm_public_key_type(key, to) }).0
}

/// The first extension of a kind.
pub(crate) fn find_extension(extensions: Octets<'_>, kind: u32) -> Option<ExtensionFields<'_>> {
    // SAFETY: as in the module above.
    let (extension, found) = written(|to| unsafe { dm_find_extension(&extensions, kind, to) });
    (found != 0).then_some(extension)
}

/// The names of the one SubjectAltName, or none.
pub(crate) fn read_subject_alt_names(extensions: Octets<'_>) -> Result<Octets<'_>> {
    // SAFETY: as in the module above.
    value_or_fault(|to, fault| unsafe { dm_read_subject_alt_names(&extensions, to, fault) }).map_err(
        |fault| {
            let value = find_extension(extensions, ExtensionKind::SubjectAltName as u32);
            Error::of_input(fault, value.map_or(&[], |found| found.value.get()))
        },
    )
}
