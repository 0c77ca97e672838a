"""Prints fields of a certificate in DER or PEM (RFC 5280, RFC 7468):  certificate.py FILE"""
import sys
from pathlib import Path

from dumarewhi import DerError, pem
from dumarewhi.x509 import Certificate

try:
    it = Certificate.from_der(pem.decode_input(Path(sys.argv[1]).read_bytes(), "CERTIFICATE"))
except DerError as error:
    sys.exit(f"{sys.argv[1]}: {error}")
print(f"serial: {it.serial_number:x}")
print(f"signature: {it.signature_algorithm.identifier}")
print(f"issuer: {it.issuer}")  # by RFC 4514, in printable ASCII
print(f"not before: {it.not_before}")
print(f"not after: {it.not_after}")
print(f"subject: {it.subject}")
print("names:", *it.subject_alt_name or ())
