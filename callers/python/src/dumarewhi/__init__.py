"""Reads BER and DER (ITU-T X.690), and writes DER: certificates, SNMP, LDAP, Kerberos.

A proved library does the work. This package calls it, and is tested.

>>> import dumarewhi
>>> tree = dumarewhi.parse_der(bytes.fromhex("3006 020105 0101ff"))
>>> tree.root.value
[5, True]
>>> [(child.tag.number, child.offset) for child in tree.root]
[(2, 2), (1, 5)]

:func:`parse_der` and :func:`parse_ber` return a :class:`Tree` of :class:`Node`. :class:`Reader` reads field after
field, and :class:`Writer` writes them. :func:`to_der` converts BER to DER. ``dumarewhi.x509`` has certificates and
keys, and ``dumarewhi.pem`` PEM.

Any thread may read any tree at any time. A :class:`Reader` or :class:`Writer` is for one thread at a time.
"""
from ._errors import DerError, Incomplete, named
from ._header import MAX_DEPTH, Class, Reason
from ._library import DEFAULT_DEPTH, Rules, error_text
from ._reader import Reader
from ._tag import AnyTag, Tag
from ._tree import Node, Tree, Value, check_ber, check_der, parse_ber, parse_der, to_der
from ._values import BitString, ObjectIdentifier
from ._writer import Block, Writer

__version__ = "0.1.0"

__all__ = [
    "AnyTag",
    "BitString",
    "Block",
    "Class",
    "DEFAULT_DEPTH",
    "DerError",
    "Incomplete",
    "MAX_DEPTH",
    "Node",
    "ObjectIdentifier",
    "Reader",
    "Reason",
    "Rules",
    "Tag",
    "Tree",
    "Value",
    "Writer",
    "__version__",
    "check_ber",
    "check_der",
    "error_text",
    "named",
    "parse_ber",
    "parse_der",
    "to_der",
]
