//! What the tree of a module is.
use crate::tree::tree_of;
use asn1_modules::read_modules;
use std::alloc::AllocError;

#[test]
fn kerberos(rt: HostRuntime) -> Result<(), AllocError> {
    let text = "KerberosV5Spec2 {
        iso(1) identified-organization(3) dod(6) internet(1) security(5) kerberosV5(2) modules(4) krb5spec2(2)
} DEFINITIONS EXPLICIT TAGS ::= BEGIN
-- OID arc
id-krb5 OBJECT IDENTIFIER ::= { iso(1) identified-organization(3) dod(6) internet(1) security(5) kerberosV5(2) }
Int32 ::= INTEGER (-2147483648..2147483647) -- signed -- 
KerberosString ::= GeneralString (IA5String)
PrincipalName ::= SEQUENCE { name-type [0] Int32, name-string [1] SEQUENCE OF KerberosString }
Ticket ::= [APPLICATION 1] SEQUENCE { tkt-vno [0] INTEGER (5), sname [2] PrincipalName OPTIONAL }
KDCOptions ::= KerberosFlags
AS-REQ ::= [APPLICATION 10] KDC-REQ
END";
    let tree = "KerberosV5Spec2 {
        iso(1) identified-organization(3) dod(6) internet(1) security(5) kerberosV5(2) modules(4) krb5spec2(2)
} Explicit
id-krb5 = identifier iso#1 identified-organization#3 dod#6 internet#1 security#5 kerberosV5#2
  ObjectIdentifier
Int32 = type
  Integer (-2147483648..2147483647)
KerberosString = type
  GeneralString (IA5String)
PrincipalName = type
  Sequence
    name-type [ContextSpecific 0] Default
      Int32
    name-string [ContextSpecific 1] Default
      SequenceOf
        KerberosString
Ticket = type
  [Application 1] Default
    Sequence
      tkt-vno [ContextSpecific 0] Default
        Integer (5)
      sname [ContextSpecific 2] Default optional
        PrincipalName
KDCOptions = type
  KerberosFlags
AS-REQ = type
  [Application 10] Default
    KDC-REQ
";
    let found = tree_of(rt.alloc(), text)?;
    assert_eq!(rt; found.as_str(), tree);
    Ok(())
}

#[test]
fn ldap(rt: HostRuntime) -> Result<(), AllocError> {
    let text = "Lightweight-Directory-Access-Protocol-V3 {1 3 6 1 1 18}
DEFINITIONS IMPLICIT TAGS EXTENSIBILITY IMPLIED ::= BEGIN
LDAPMessage ::= SEQUENCE {
     messageID       MessageID,
     protocolOp      CHOICE {
          bindRequest           BindRequest,
          delRequest            DelRequest, ..., intermediateResponse  IntermediateResponse },
     controls       [0] Controls OPTIONAL }
maxInt INTEGER ::= 2147483647 -- (2^^31 - 1) --
DelRequest ::= [APPLICATION 10] LDAPDN
LDAPResult ::= SEQUENCE {
     resultCode         ENUMERATED { success (0), operationsError (1), other (80), ... },
     referral           [3] Referral OPTIONAL }
BindResponse ::= [APPLICATION 1] SEQUENCE { COMPONENTS OF LDAPResult, serverSaslCreds [7] OCTET STRING OPTIONAL }
Referral ::= SEQUENCE SIZE (1..MAX) OF uri URI
Filter ::= CHOICE { and [0] SET SIZE (1..MAX) OF filter Filter, not [2] Filter }
END";
    let tree = "Lightweight-Directory-Access-Protocol-V3 {1 3 6 1 1 18} Implicit extensible
LDAPMessage = type
  Sequence
    messageID MessageID
    protocolOp Choice
      bindRequest BindRequest
      delRequest DelRequest
      ...
      intermediateResponse IntermediateResponse
    controls [ContextSpecific 0] Default optional
      Controls
maxInt = number 2147483647
  Integer
DelRequest = type
  [Application 10] Default
    LDAPDN
LDAPResult = type
  Sequence
    resultCode Enumerated
      success 0
      operationsError 1
      other 80
      ...
    referral [ContextSpecific 3] Default optional
      Referral
BindResponse = type
  [Application 1] Default
    Sequence
      ComponentsOf
        LDAPResult
      serverSaslCreds [ContextSpecific 7] Default optional
        OctetString
Referral = type
  SequenceOf SIZE (1..MAX)
    uri URI
Filter = type
  Choice
    and [ContextSpecific 0] Default
      SetOf SIZE (1..MAX)
        filter Filter
    not [ContextSpecific 2] Default
      Filter
";
    let found = tree_of(rt.alloc(), text)?;
    assert_eq!(rt; found.as_str(), tree);
    Ok(())
}

#[test]
fn explicit88(rt: HostRuntime) -> Result<(), AllocError> {
    let text = "PKIX1Explicit88 { iso(1) id-pkix1-explicit(18) } DEFINITIONS EXPLICIT TAGS ::= BEGIN
-- EXPORTS ALL --
-- IMPORTS NONE --
id-pkix  OBJECT IDENTIFIER  ::= { iso(1) security(5) mechanisms(5) pkix(7) }
id-pe OBJECT IDENTIFIER ::= { id-pkix 1 }
id-at-name AttributeType ::= { id-at 41 }
Attribute ::= SEQUENCE { type AttributeType, values SET OF AttributeValue }
AttributeValue ::= ANY -- DEFINED BY AttributeType
ub-name INTEGER ::= 32768
X520name ::= CHOICE {
      teletexString  TeletexString (SIZE (1..ub-name)), bmpString BMPString (SIZE (1..ub-name)) }
Version ::= INTEGER { v1(0), v2(1), v3(2) }
TBSCertificate ::= SEQUENCE { version [0] Version DEFAULT v1, issuerUniqueID [1] IMPLICIT UniqueIdentifier OPTIONAL }
AlgorithmIdentifier ::= SEQUENCE { algorithm OBJECT IDENTIFIER, parameters ANY DEFINED BY algorithm OPTIONAL }
KeyUsage ::= BIT STRING { digitalSignature (0), keyCertSign(5) }
CountryName ::= [APPLICATION 1] CHOICE { x121-dcc-code NumericString (SIZE (ub-digits)) }
EDIPartyName ::= SEQUENCE { nameAssigner [0] DirectoryString OPTIONAL }
BuiltIn ::= SET { empty SEQUENCE {}, nothing NULL }
END
PKIX1Implicit88 DEFINITIONS IMPLICIT TAGS ::= BEGIN EXPORTS;
IMPORTS id-pe, Attribute, X520name FROM PKIX1Explicit88 { iso(1) } ORAddress FROM Other;
id-ce OBJECT IDENTIFIER ::= {joint-iso-ccitt(2) ds(5) 29}
END";
    let tree = "PKIX1Explicit88 { iso(1) id-pkix1-explicit(18) } Explicit
id-pkix = identifier iso#1 security#5 mechanisms#5 pkix#7
  ObjectIdentifier
id-pe = identifier id-pkix #1
  ObjectIdentifier
id-at-name = identifier id-at #41
  AttributeType
Attribute = type
  Sequence
    type AttributeType
    values SetOf
      AttributeValue
AttributeValue = type
  any 
ub-name = number 32768
  Integer
X520name = type
  Choice
    teletexString TeletexString (SIZE (1..ub-name))
    bmpString BmpString (SIZE (1..ub-name))
Version = type
  Integer
    v1 0
    v2 1
    v3 2
TBSCertificate = type
  Sequence
    version [ContextSpecific 0] Default default v1
      Version
    issuerUniqueID [ContextSpecific 1] Implicit optional
      UniqueIdentifier
AlgorithmIdentifier = type
  Sequence
    algorithm ObjectIdentifier
    parameters any algorithm optional
KeyUsage = type
  BitString
    digitalSignature 0
    keyCertSign 5
CountryName = type
  [Application 1] Default
    Choice
      x121-dcc-code NumericString (SIZE (ub-digits))
EDIPartyName = type
  Sequence
    nameAssigner [ContextSpecific 0] Default optional
      DirectoryString
BuiltIn = type
  Set
    empty Sequence
    nothing Null
PKIX1Implicit88 Implicit exports
import id-pe from PKIX1Explicit88 { iso(1) }
import Attribute from PKIX1Explicit88 { iso(1) }
import X520name from PKIX1Explicit88 { iso(1) }
import ORAddress from Other
id-ce = identifier joint-iso-ccitt#2 ds#5 #29
  ObjectIdentifier
";
    let found = tree_of(rt.alloc(), text)?;
    assert_eq!(rt; found.as_str(), tree);
    Ok(())
}

#[test]
fn information_objects(rt: HostRuntime) -> Result<(), AllocError> {
    let text = "PKIX-CommonTypes-2009 {iso(1) id-mod-pkixCommon-02(57)} DEFINITIONS EXPLICIT TAGS ::= BEGIN
EXPORTS ALL ;
IMPORTS AlgorithmIdentifier{}, PUBLIC-KEY, id-pkix FROM AlgorithmInformation-2009 {iso(1) id-mod(58)};
ATTRIBUTE ::= CLASS {
    &id             OBJECT IDENTIFIER UNIQUE,
    &Type           OPTIONAL,
    &equality-match MATCHING-RULE OPTIONAL,
    &minCount       INTEGER DEFAULT 1
} WITH SYNTAX {
    [TYPE &Type [COUNTS [MIN &minCount]]]
    IDENTIFIED BY &id
}
MATCHING-RULE ::= TYPE-IDENTIFIER
AttributeSet{ATTRIBUTE:AttrSet} ::= SEQUENCE {
    type      ATTRIBUTE.&id({AttrSet}),
    values    SET SIZE (1..MAX) OF ATTRIBUTE.&Type({AttrSet}{@type})
}
at-name ATTRIBUTE ::= { TYPE X520name IDENTIFIED BY id-at-name }
KnownAttributes ATTRIBUTE ::= { at-name | at-surname, ... }
SIGNED{ToBeSigned} ::= SEQUENCE {
    toBeSigned  ToBeSigned,
    algorithm   SEQUENCE { algorithm SIGNATURE-ALGORITHM.&id({Algs}), parameters INTEGER OPTIONAL },
    signature   BIT STRING (CONTAINING SIGNATURE-ALGORITHM.&Value({Algs}{@algorithm.algorithm}))
}
Certificate ::= SIGNED{TBSCertificate}
Content{INTEGER:max} ATTRIBUTE ::= { ... }
Other ::= INSTANCE OF OTHER-NAME
choice-value Choice ::= one : two : { a 1, b {c 2} }
another Module.Type ::= Module.other
END";
    let tree = "PKIX-CommonTypes-2009 {iso(1) id-mod-pkixCommon-02(57)} Explicit
import AlgorithmIdentifier from AlgorithmInformation-2009 {iso(1) id-mod(58)}
import PUBLIC-KEY from AlgorithmInformation-2009 {iso(1) id-mod(58)}
import id-pkix from AlgorithmInformation-2009 {iso(1) id-mod(58)}
ATTRIBUTE = class CLASS {
    &id             OBJECT IDENTIFIER UNIQUE,
    &Type           OPTIONAL,
    &equality-match MATCHING-RULE OPTIONAL,
    &minCount       INTEGER DEFAULT 1
} WITH SYNTAX {
    [TYPE &Type [COUNTS [MIN &minCount]]]
    IDENTIFIED BY &id
}
MATCHING-RULE = type
  TYPE-IDENTIFIER
AttributeSet {ATTRIBUTE:AttrSet} = type
  Sequence
    type field ATTRIBUTE.&id ({AttrSet})
    values SetOf SIZE (1..MAX)
      field ATTRIBUTE.&Type ({AttrSet}{@type})
at-name = text { TYPE X520name IDENTIFIED BY id-at-name }
  ATTRIBUTE
KnownAttributes = set { at-name | at-surname, ... }
  ATTRIBUTE
SIGNED {ToBeSigned} = type
  Sequence
    toBeSigned ToBeSigned
    algorithm Sequence
      algorithm field SIGNATURE-ALGORITHM.&id ({Algs})
      parameters Integer optional
    signature BitString (CONTAINING SIGNATURE-ALGORITHM.&Value({Algs}{@algorithm.algorithm}))
Certificate = type
  SIGNED {TBSCertificate}
Content {INTEGER:max} = set { ... }
  ATTRIBUTE
Other = type
  instance of OTHER-NAME
choice-value = text one : two : { a 1, b {c 2} }
  Choice
another = text Module.other
  Module.Type
";
    let found = tree_of(rt.alloc(), text)?;
    assert_eq!(rt; found.as_str(), tree);
    Ok(())
}

#[test]
fn every_type(rt: HostRuntime) -> Result<(), AllocError> {
    let text = "Types DEFINITIONS AUTOMATIC TAGS ::= BEGIN EXPORTS A, b, C{} ; IMPORTS ;
A ::= SEQUENCE {
  one BOOLEAN DEFAULT TRUE, two EMBEDDED PDV, three CHARACTER STRING, four [PRIVATE tag] EXPLICIT REAL DEFAULT -1.5E-3,
  five four < B, six SEQUENCE (SIZE(1 | 2)) OF SET OF DATE-TIME, seven RELATIVE-OID-IRI, eight Other.B{1, {2}},
  ... ! INTEGER : -1, [[ nine UTF8String OPTIONAL ]], [[2: ten UTCTime, eleven EXTERNAL]], ... }
B ::= CHOICE { a [UNIVERSAL 2] INTEGER { x(-5), y(b), z(M.c) }, ..., [[ b NULL ]] }
c BIT STRING ::= '0101'B
d OCTET STRING ::= '0F A'H
e IA5String ::= \"a \"\"quote\"\" -- no comment\"
f SEQUENCE OF INTEGER ::= { 1, 2 }
g B ::= a : TRUE
h INTEGER ::= -7
/* a comment /* inside */ another */ i Foo ::= c--comment
j Foo ::= {}
K ::= ENUMERATED { a, b(1), ..., c }
L INTEGER ::= { 1 | 2 }
SYNTAX-OF MACRO ::= BEGIN TYPE NOTATION ::= \"X\" | value END
m OCTET STRING ::= CONTAINING n
n Foo ::= p { 5 }
END";
    let tree = "Types Automatic exports A, b, C{}
A = type
  Sequence
    one Boolean default TRUE
    two EmbeddedPdv
    three CharacterString
    four [Private tag] Explicit default -1.5E-3
      Real
    five selection four
      B
    six SequenceOf (SIZE(1 | 2))
      SetOf
        DateTime
    seven RelativeOidIri
    eight Other.B {1, {2}}
    ... ! INTEGER : -1
    Additions
      nine Utf8String optional
    Additions
      ten UtcTime
      eleven External
    ...
B = type
  Choice
    a [Universal 2] Default
      Integer
        x -5
        y b
        z c
    ...
    Additions
      b Null
c = text '0101'B
  BitString
d = text '0F A'H
  OctetString
e = text \"a \"\"quote\"\" -- no comment\"
  Ia5String
f = text { 1, 2 }
  SequenceOf
    Integer
g = text a : TRUE
  B
h = number -7
  Integer
i = reference c
  Foo
j = text {}
  Foo
K = type
  Enumerated
    a item
    b 1
    ...
    c item
L = set { 1 | 2 }
  Integer
SYNTAX-OF = macro MACRO ::= BEGIN TYPE NOTATION ::= \"X\" | value END
m = text CONTAINING n
  OctetString
n = text p { 5 }
  Foo
";
    let found = tree_of(rt.alloc(), text)?;
    assert_eq!(rt; found.as_str(), tree);
    Ok(())
}

#[test]
fn no_break_space(rt: HostRuntime) {
    let text = "M DEFINITIONS ::= BEGIN\u{a0}A ::= NULL END";
    match read_modules(rt.alloc(), text.as_bytes()) {
        Ok(syntax) => assert_eq!(rt; syntax.assignments.len(), 1),
        Err(error) => panic!(rt; "{error}"),
    }
}
