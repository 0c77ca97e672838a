//! Made by callers/make of the repository.
use super::*;
use core::ptr::NonNull;

pub(crate) const OK: u32 = 0;
pub(crate) const ERROR: u32 = 1;
pub(crate) const INCOMPLETE: u32 = 2;
pub(crate) const NO_ROOM: u32 = 3;
pub(crate) const NOT_CLOSED: u32 = 4;
pub(crate) const LOCAL: u8 = 0;
pub(crate) const UTC: u8 = 1;
pub(crate) const OFFSET: u8 = 2;
pub(crate) const RULE_NONE: u32 = 0;
pub(crate) const RULE_MUST: u32 = 1;
pub(crate) const RULE_SHOULD: u32 = 2;
pub(crate) const MAX_DEPTH: usize = 101;
pub(crate) const TEXT_OCTETS: usize = 160;
pub(crate) const MAX_BROKEN_RULES: usize = 256;

structs! {
    /// One element of the input: its tag (X.690 8.1.2) and offsets.
    pub struct Element as dm_element {
        header: usize,
        content: usize,
        end: usize,
        inside: usize,
        number: u32,
        tag_class: u8,
        constructed: u8,
        definite: u8,
        reserved: u8,
    }
    pub(crate) struct Outcome as dm_outcome {
        elements: usize,
        length: usize,
        place: usize,
        missing: usize,
        status: u32,
        error: u32,
    }
    pub(crate) struct TimeFields as dm_time {
        year: u32,
        nanosecond: u32,
        month: u8,
        day: u8,
        hour: u8,
        minute: u8,
        second: u8,
        zone: u8,
        zone_hours: i8,
        zone_minutes: i8,
    }
    pub(crate) struct WriterState as dm_writer {
        octets: Option<NonNull<u8>>,
        capacity: usize,
        count: usize,
        innermost: usize,
        implicit: u32,
        number: u32,
    }
    pub(crate) struct Mark as dm_mark {
        start: usize,
        outer: usize,
    }
    pub(crate) struct Fault as dm_fault {
        offset: usize,
        list_end: usize,
        needed: usize,
        status: u32,
        error: u32,
        field: u32,
        is_in_list: u32,
    }
    pub(crate) struct AlgorithmFields<'a> as dm_algorithm {
        identifier: Octets<'a>,
        parameters: Octets<'a>,
    }
    pub(crate) struct BitsFields<'a> as dm_bits {
        octets: Octets<'a>,
        unused: u32,
        is_present: u32,
    }
    pub(crate) struct AnyFields<'a> as dm_any {
        content: Octets<'a>,
        number: u32,
        tag_class: u8,
        constructed: u8,
        reserved: u16,
    }
    pub(crate) struct MomentFields as dm_moment {
        time: TimeFields,
        number: u32,
    }
    pub(crate) struct CertificateFields<'a> as dm_certificate {
        tbs: Octets<'a>,
        serial_number: Octets<'a>,
        signature: AlgorithmFields<'a>,
        issuer: Octets<'a>,
        subject: Octets<'a>,
        key_algorithm: AlgorithmFields<'a>,
        key: BitsFields<'a>,
        issuer_unique_id: BitsFields<'a>,
        subject_unique_id: BitsFields<'a>,
        extensions: Octets<'a>,
        signature_algorithm: AlgorithmFields<'a>,
        signature_value: BitsFields<'a>,
        not_before: MomentFields,
        not_after: MomentFields,
        version: u32,
        reserved: u32,
    }
    pub(crate) struct AttributeFields<'a> as dm_attribute {
        identifier: Octets<'a>,
        value: Octets<'a>,
        number: u32,
        tag_class: u8,
        constructed: u8,
        reserved: u16,
    }
    pub(crate) struct ExtensionFields<'a> as dm_extension {
        identifier: Octets<'a>,
        value: Octets<'a>,
        critical: u32,
        kind: u32,
    }
    pub(crate) struct BasicConstraintsFields as dm_basic_constraints {
        ca: u32,
        has_path_length: u32,
        path_length: u32,
    }
    pub(crate) struct GeneralNameFields<'a> as dm_general_name {
        octets: Octets<'a>,
        identifier: Octets<'a>,
        kind: u32,
        reserved: u32,
    }
    pub(crate) struct AuthorityKeyIdentifierFields<'a> as dm_authority_key_identifier {
        key_identifier: Octets<'a>,
        issuer: Octets<'a>,
        serial_number: Octets<'a>,
        has_key_identifier: u32,
        has_issuer: u32,
        has_serial_number: u32,
        reserved: u32,
    }
    pub(crate) struct PolicyFields<'a> as dm_policy {
        identifier: Octets<'a>,
        qualifiers: Octets<'a>,
    }
    pub(crate) struct PolicyQualifierFields<'a> as dm_policy_qualifier {
        identifier: Octets<'a>,
        value: AnyFields<'a>,
    }
    pub(crate) struct DistributionPointFields<'a> as dm_distribution_point {
        full_name: Octets<'a>,
        relative_name: Octets<'a>,
        reasons: BitsFields<'a>,
        crl_issuer: Octets<'a>,
    }
    pub(crate) struct NameConstraintsFields<'a> as dm_name_constraints {
        permitted: Octets<'a>,
        excluded: Octets<'a>,
    }
    pub(crate) struct SubtreeFields<'a> as dm_subtree {
        base: GeneralNameFields<'a>,
        minimum: u32,
        maximum: u32,
        has_maximum: u32,
        reserved: u32,
    }
    pub(crate) struct AccessDescriptionFields<'a> as dm_access_description {
        method: Octets<'a>,
        location: GeneralNameFields<'a>,
    }
    pub(crate) struct PolicyMappingFields<'a> as dm_policy_mapping {
        issuer_policy: Octets<'a>,
        subject_policy: Octets<'a>,
    }
    pub(crate) struct PolicyConstraintsFields as dm_policy_constraints {
        has_require_explicit_policy: u32,
        require_explicit_policy: u32,
        has_inhibit_policy_mapping: u32,
        inhibit_policy_mapping: u32,
    }
    pub(crate) struct RequestAttributeFields<'a> as dm_request_attribute {
        identifier: Octets<'a>,
        values: Octets<'a>,
    }
    pub(crate) struct QcStatementFields<'a> as dm_qc_statement {
        identifier: Octets<'a>,
        info: AnyFields<'a>,
        has_info: u32,
        reserved: u32,
    }
    pub(crate) struct OrganizationIdentifierFields<'a> as dm_organization_identifier {
        scheme: Octets<'a>,
        country: Octets<'a>,
        state_or_province: Octets<'a>,
        reference: Octets<'a>,
        has_state_or_province: u32,
        reserved: u32,
    }
    pub(crate) struct CertificateListFields<'a> as dm_certificate_list {
        tbs: Octets<'a>,
        signature: AlgorithmFields<'a>,
        issuer: Octets<'a>,
        revoked: Octets<'a>,
        extensions: Octets<'a>,
        signature_algorithm: AlgorithmFields<'a>,
        signature_value: BitsFields<'a>,
        this_update: MomentFields,
        next_update: MomentFields,
        version: u32,
        has_revoked: u32,
    }
    pub(crate) struct RevokedFields<'a> as dm_revoked {
        serial_number: Octets<'a>,
        extensions: Octets<'a>,
        date: MomentFields,
        reserved: u32,
    }
    pub(crate) struct IssuingDistributionPointFields<'a> as dm_issuing_distribution_point {
        full_name: Octets<'a>,
        relative_name: Octets<'a>,
        reasons: BitsFields<'a>,
        only_contains_user_certs: u32,
        only_contains_ca_certs: u32,
        indirect_crl: u32,
        only_contains_attribute_certs: u32,
    }
    pub(crate) struct RequestFields<'a> as dm_request {
        info: Octets<'a>,
        subject: Octets<'a>,
        key_algorithm: AlgorithmFields<'a>,
        key: BitsFields<'a>,
        attributes: Octets<'a>,
        signature_algorithm: AlgorithmFields<'a>,
        signature: BitsFields<'a>,
    }
    pub(crate) struct PrivateKeyFields<'a> as dm_private_key {
        algorithm: Octets<'a>,
        parameters: AnyFields<'a>,
        private_key: Octets<'a>,
        attributes: Octets<'a>,
        public_key: BitsFields<'a>,
        version: u32,
        has_parameters: u32,
        has_attributes: u32,
        reserved: u32,
    }
    pub(crate) struct RsaPrivateKeyFields<'a> as dm_rsa_private_key {
        modulus: Octets<'a>,
        public_exponent: Octets<'a>,
        private_exponent: Octets<'a>,
        prime1: Octets<'a>,
        prime2: Octets<'a>,
        exponent1: Octets<'a>,
        exponent2: Octets<'a>,
        coefficient: Octets<'a>,
        other_primes: Octets<'a>,
        version: u32,
        has_other_primes: u32,
    }
    pub(crate) struct EcPrivateKeyFields<'a> as dm_ec_private_key {
        private_key: Octets<'a>,
        parameters: AnyFields<'a>,
        public_key: BitsFields<'a>,
        version: u32,
        has_parameters: u32,
    }
    pub(crate) struct EncryptedPrivateKeyFields<'a> as dm_encrypted_private_key {
        algorithm: Octets<'a>,
        parameters: AnyFields<'a>,
        encrypted_data: Octets<'a>,
        has_parameters: u32,
        reserved: u32,
    }
    pub(crate) struct PublicKeyFields<'a> as dm_public_key {
        algorithm: Octets<'a>,
        parameters: AnyFields<'a>,
        public_key: BitsFields<'a>,
        has_parameters: u32,
        reserved: u32,
    }
    pub(crate) struct RsaPublicKeyFields<'a> as dm_rsa_public_key {
        modulus: Octets<'a>,
        public_exponent: Octets<'a>,
    }
    pub(crate) struct KeyKindFields as dm_key_kind {
        key_type: u32,
        curve: u32,
        bits: u32,
    }
    pub(crate) struct PemFields<'a> as dm_pem {
        label: Octets<'a>,
        length: usize,
    }
    pub(crate) struct DigestFields as dm_digest {
        octets: [u8; 32],
    }
    pub(crate) struct Cursor<'a> as dm_cursor {
        left: Octets<'a>,
        offset: usize,
        rules: u32,
        is_inside: u32,
        implicit: u32,
        number: u32,
    }
}

reads! {
    fn dm_read_certificate() as read_certificate -> CertificateFields<'a>;
    fn dm_read_strict_certificate() as read_strict_certificate -> CertificateFields<'a>;
    fn dm_read_basic_constraints() as read_basic_constraints -> BasicConstraintsFields;
    fn dm_read_key_usage() as read_key_usage -> u32;
    fn dm_read_general_names() as read_general_names -> Octets<'a>;
    fn dm_read_extended_key_usage() as read_extended_key_usage -> Octets<'a>;
    fn dm_read_subject_key_identifier() as read_subject_key_identifier -> Octets<'a>;
    fn dm_read_authority_key_identifier() as read_authority_key_identifier -> AuthorityKeyIdentifierFields<'a>;
    fn dm_read_certificate_policies() as read_certificate_policies -> Octets<'a>;
    fn dm_read_distribution_points() as read_distribution_points -> Octets<'a>;
    fn dm_read_name_constraints() as read_name_constraints -> NameConstraintsFields<'a>;
    fn dm_read_information_access() as read_information_access -> Octets<'a>;
    fn dm_read_policy_mappings() as read_policy_mappings -> Octets<'a>;
    fn dm_read_policy_constraints() as read_policy_constraints -> PolicyConstraintsFields;
    fn dm_read_inhibit_any_policy() as read_inhibit_any_policy -> u32;
    fn dm_read_directory_attributes() as read_directory_attributes -> Octets<'a>;
    fn dm_read_signed_certificate_timestamps() as read_signed_certificate_timestamps -> Octets<'a>;
    fn dm_read_tls_features() as read_tls_features -> Octets<'a>;
    fn dm_read_qc_statements() as read_qc_statements -> Octets<'a>;
    fn dm_read_organization_identifier() as read_organization_identifier -> OrganizationIdentifierFields<'a>;
    fn dm_read_certificate_list() as read_certificate_list -> CertificateListFields<'a>;
    fn dm_read_reason() as read_reason -> u32;
    fn dm_read_invalidity_date() as read_invalidity_date -> TimeFields;
    fn dm_read_crl_number() as read_crl_number -> Octets<'a>;
    fn dm_read_issuing_distribution_point() as read_issuing_distribution_point -> IssuingDistributionPointFields<'a>;
    fn dm_read_request() as read_request -> RequestFields<'a>;
    fn dm_read_extension_request() as read_extension_request -> Octets<'a>;
    fn dm_read_private_key() as read_private_key -> PrivateKeyFields<'a>;
    fn dm_read_rsa_private_key() as read_rsa_private_key -> RsaPrivateKeyFields<'a>;
    fn dm_read_ec_private_key() as read_ec_private_key -> EcPrivateKeyFields<'a>;
    fn dm_read_encrypted_private_key() as read_encrypted_private_key -> EncryptedPrivateKeyFields<'a>;
    fn dm_read_public_key() as read_public_key -> PublicKeyFields<'a>;
    fn dm_read_rsa_public_key() as read_rsa_public_key -> RsaPublicKeyFields<'a>;
}

items! {
    fn dm_next_relative_name() as next_relative_name -> Octets<'a>;
    fn dm_next_attribute() as next_attribute -> AttributeFields<'a>;
    fn dm_next_extension() as next_extension -> ExtensionFields<'a>;
    fn dm_next_general_name() as next_general_name -> GeneralNameFields<'a>;
    fn dm_next_dns_name() as next_dns_name -> Octets<'a>;
    fn dm_next_key_purpose() as next_key_purpose -> Octets<'a>;
    fn dm_next_policy() as next_policy -> PolicyFields<'a>;
    fn dm_next_policy_qualifier() as next_policy_qualifier -> PolicyQualifierFields<'a>;
    fn dm_next_distribution_point() as next_distribution_point -> DistributionPointFields<'a>;
    fn dm_next_subtree() as next_subtree -> SubtreeFields<'a>;
    fn dm_next_access_description() as next_access_description -> AccessDescriptionFields<'a>;
    fn dm_next_policy_mapping() as next_policy_mapping -> PolicyMappingFields<'a>;
    fn dm_next_directory_attribute() as next_directory_attribute -> RequestAttributeFields<'a>;
    fn dm_next_timestamp() as next_timestamp -> Octets<'a>;
    fn dm_next_tls_feature() as next_tls_feature -> u32;
    fn dm_next_qc_statement() as next_qc_statement -> QcStatementFields<'a>;
    fn dm_next_revoked() as next_revoked -> RevokedFields<'a>;
    fn dm_next_request_attribute() as next_request_attribute -> RequestAttributeFields<'a>;
}

fields! {
    fn dm_next_bool() as boolean -> u8;
    fn dm_next_u64() as u64 -> u64;
    fn dm_next_i64() as i64 -> i64;
    fn dm_next_enumerated() as enumerated -> u64;
    fn dm_next_integer() as integer -> Octets<'a>;
    fn dm_next_octets() as octets -> Octets<'a>;
    fn dm_next_oid() as oid -> Octets<'a>;
    fn dm_next_bits() as bits -> BitsFields<'a>;
    fn dm_next_utc_time() as utc_time -> TimeFields;
    fn dm_next_generalized_time() as generalized_time -> TimeFields;
    fn dm_next_sequence() as sequence -> Cursor<'a>;
    fn dm_next_set() as set -> Cursor<'a>;
    fn dm_next_any() as any -> AnyFields<'a>;
}

puts! {
    fn dm_open_sequence() as open_sequence -> Mark;
    fn dm_open_set() as open_set -> Mark;
    fn dm_open_octet_string() as open_octet_string -> Mark;
    fn dm_open_tagged(number: u32) as open_tagged -> Mark;
    fn dm_open(tag_class: u8, constructed: u8, number: u32) as open -> Mark;
    fn dm_close(mark: Mark) as close;
    fn dm_close_set_of(mark: Mark) as close_set_of;
    fn dm_implicit(tag_class: u8, number: u32) as implicit;
    fn dm_put_bool(value: u8) as put_bool;
    fn dm_put_i64(value: i64) as put_i64;
    fn dm_put_u64(value: u64) as put_u64;
    fn dm_put_enumerated(value: u64) as put_enumerated;
    fn dm_put_enumerated_i64(value: i64) as put_enumerated_i64;
    fn dm_put_octets(; octets: u8) as put_octets;
    fn dm_put_null() as put_null;
    fn dm_put_magnitude(; octets: u8) as put_magnitude;
    fn dm_put_bits(unused: u8; octets: u8) as put_bits;
    fn dm_put_oid(; content: u8) as put_oid;
    fn dm_put_elements(; octets: u8) as put_elements;
    fn dm_put_integer(; content: u8) as put_integer -> u32;
    fn dm_put_arcs(; arcs: u64) as put_arcs -> u32;
    fn dm_put_text(number: u32; octets: u8) as put_text -> u32;
    fn dm_put_time(number: u32, time: &TimeFields) as put_time -> u32;
}

extern "C" {
    pub(crate) fn dm_version() -> u32;
    pub(crate) fn dm_parse_der(input: *const u8, length: usize, max_depth: usize, elements: *mut Element, room: usize,
        outcome: *mut Outcome) -> u32;
    pub(crate) fn dm_parse_ber(input: *const u8, length: usize, max_depth: usize, elements: *mut Element, room: usize,
        outcome: *mut Outcome) -> u32;
    pub(crate) fn dm_check_der(input: *const u8, length: usize, max_depth: usize, outcome: *mut Outcome) -> u32;
    pub(crate) fn dm_check_ber(input: *const u8, length: usize, max_depth: usize, outcome: *mut Outcome) -> u32;
    pub(crate) fn dm_first_der(input: *const u8, length: usize, element: *mut Element, outcome: *mut Outcome) -> u32;
    pub(crate) fn dm_first_ber(input: *const u8, length: usize, element: *mut Element, outcome: *mut Outcome) -> u32;
    pub(crate) fn dm_write_der(input: *const u8, length: usize, out: *mut u8, room: usize,
        outcome: *mut Outcome) -> u32;
    pub(crate) fn dm_error_text(error: u32, text: *mut u8, room: usize) -> usize;
    pub(crate) fn dm_read_i64(content: *const u8, length: usize, value: *mut i64) -> u32;
    pub(crate) fn dm_read_u64(content: *const u8, length: usize, value: *mut u64) -> u32;
    pub(crate) fn dm_read_bool(content: *const u8, length: usize, value: *mut u8) -> u32;
    pub(crate) fn dm_read_oid(content: *const u8, length: usize, text: *mut u8, room: usize, needed: *mut usize) -> u32;
    pub(crate) fn dm_oid_from_text(text: *const u8, length: usize, octets: *mut u8, room: usize,
        needed: *mut usize) -> u32;
    pub(crate) fn dm_check_text(number: u32, content: *const u8, length: usize) -> u32;
    pub(crate) fn dm_read_time(number: u32, content: *const u8, length: usize, time: *mut TimeFields) -> u32;
    pub(crate) fn dm_finish(writer: *const WriterState, length: *mut usize) -> u32;
    pub(crate) fn dm_fault_text(fault: *const Fault, text: *mut u8, room: usize) -> usize;
    pub(crate) fn dm_named_fault_text(fault: *const Fault, name: *const u8, length: usize, text: *mut u8,
        room: usize) -> usize;
    pub(crate) fn dm_found_text(fault: *const Fault, input: *const u8, length: usize, text: *mut u8,
        room: usize) -> usize;
    pub(crate) fn dm_tag_text(tag_class: u8, number: u32, text: *mut u8, room: usize) -> usize;
    pub(crate) fn dm_is_valid_at<'a>(certificate: *const CertificateFields<'a>, seconds: u64) -> u32;
    pub(crate) fn dm_name_text(name: *const u8, length: usize, text: *mut u8, room: usize) -> usize;
    pub(crate) fn dm_name_utf8(name: *const u8, length: usize, text: *mut u8, room: usize) -> usize;
    pub(crate) fn dm_find_extension<'a>(extensions: *const Octets<'a>, kind: u32,
        extension: *mut ExtensionFields<'a>) -> u32;
    pub(crate) fn dm_has_unknown_critical(extensions: *const u8, length: usize) -> u32;
    pub(crate) fn dm_read_subject_alt_names<'a>(extensions: *const Octets<'a>, names: *mut Octets<'a>,
        fault: *mut Fault) -> u32;
    pub(crate) fn dm_read_null_extension(value: *const u8, length: usize, fault: *mut Fault) -> u32;
    pub(crate) fn dm_broken_rules(input: *const u8, length: usize, rules: *mut u32, room: usize, count: *mut usize,
        fault: *mut Fault) -> u32;
    pub(crate) fn dm_broken_crl_rules(input: *const u8, length: usize, rules: *mut u32, room: usize, count: *mut usize,
        fault: *mut Fault) -> u32;
    pub(crate) fn dm_rule_text(rule: u32, text: *mut u8, room: usize) -> usize;
    pub(crate) fn dm_rule_kind(rule: u32) -> u32;
    pub(crate) fn dm_key_type<'a>(algorithm: *const AlgorithmFields<'a>, key: *const BitsFields<'a>,
        kind: *mut KeyKindFields) -> u32;
    pub(crate) fn dm_public_key_type<'a>(key: *const PublicKeyFields<'a>, kind: *mut KeyKindFields) -> u32;
    pub(crate) fn dm_next_pem<'a>(text: *mut Octets<'a>, characters: *mut u8, room: usize, octets: *mut u8,
        capacity: usize, block: *mut PemFields<'a>) -> u32;
    pub(crate) fn dm_find_pem(text: *const u8, length: usize, offset: *mut usize) -> u32;
    pub(crate) fn dm_decode_input(input: *const u8, length: usize, octets: *mut u8, room: usize,
        size: *mut usize) -> u32;
    pub(crate) fn dm_sha256(input: *const u8, length: usize, digest: *mut DigestFields);
    pub(crate) fn dm_is_next<'a>(cursor: *const Cursor<'a>, tag_class: u8, number: u32) -> u32;
    pub(crate) fn dm_next_null<'a>(cursor: *mut Cursor<'a>, fault: *mut Fault) -> u32;
    pub(crate) fn dm_next_text<'a>(cursor: *mut Cursor<'a>, number: u32, text: *mut Octets<'a>,
        fault: *mut Fault) -> u32;
    pub(crate) fn dm_next_content<'a>(cursor: *mut Cursor<'a>, tag_class: u8, constructed: u8, number: u32,
        content: *mut Cursor<'a>, fault: *mut Fault) -> u32;
    pub(crate) fn dm_end<'a>(cursor: *const Cursor<'a>, fault: *mut Fault) -> u32;
}

/// The layout of each struct.
#[cfg(test)]
pub(crate) fn rows() -> Rows {
    [Element::rows(), Outcome::rows(), TimeFields::rows(), WriterState::rows(), Mark::rows(), Octets::rows(),
    Fault::rows(), AlgorithmFields::rows(), BitsFields::rows(), AnyFields::rows(), MomentFields::rows(),
    CertificateFields::rows(), AttributeFields::rows(), ExtensionFields::rows(), BasicConstraintsFields::rows(),
    GeneralNameFields::rows(), AuthorityKeyIdentifierFields::rows(), PolicyFields::rows(),
    PolicyQualifierFields::rows(), DistributionPointFields::rows(), NameConstraintsFields::rows(),
    SubtreeFields::rows(), AccessDescriptionFields::rows(), PolicyMappingFields::rows(),
    PolicyConstraintsFields::rows(), RequestAttributeFields::rows(), QcStatementFields::rows(),
    OrganizationIdentifierFields::rows(), CertificateListFields::rows(), RevokedFields::rows(),
    IssuingDistributionPointFields::rows(), RequestFields::rows(), PrivateKeyFields::rows(),
    RsaPrivateKeyFields::rows(), EcPrivateKeyFields::rows(), EncryptedPrivateKeyFields::rows(), PublicKeyFields::rows(),
    RsaPublicKeyFields::rows(), KeyKindFields::rows(), PemFields::rows(), DigestFields::rows(), Cursor::rows()].concat()
}
