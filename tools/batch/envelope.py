"""Statements of in-toto in envelopes of DSSE, signed by keys of ed25519."""

import base64
import hashlib
import json
from typing import Any

PAYLOAD = "application/vnd.in-toto+json"
STATEMENT = "https://in-toto.io/Statement/v1"
DSSE = "DSSEv1"


class NoKey(Exception):
    """There is no such key, with the reason."""


def sum_of(data: bytes) -> dict[str, str]:
    """The digest of bytes as in-toto has it."""
    return {"sha256": hashlib.sha256(data).hexdigest()}


def signed_bytes(body: bytes) -> bytes:
    """What a signature is of: DSSE's encoding of a payload before it is authenticated."""
    return b"%s %d %s %d %s" % (DSSE.encode(), len(PAYLOAD), PAYLOAD.encode(), len(body), body)


def key_of(name: str, text: bytes, is_private: bool) -> Any:
    """The key of ed25519 in a file with this name and text."""
    try:
        from cryptography.exceptions import UnsupportedAlgorithm
        from cryptography.hazmat.primitives import serialization
        from cryptography.hazmat.primitives.asymmetric import ed25519
    except ImportError as error:
        raise NoKey("python3-cryptography is missing (Debian's package)") from error
    try:
        if is_private:
            key: Any = serialization.load_pem_private_key(text, None)
        else:
            key = serialization.load_pem_public_key(text)
    except (TypeError, ValueError, UnsupportedAlgorithm) as error:
        raise NoKey(f"{name} has no key of this kind (--help)") from error
    if not isinstance(key, ed25519.Ed25519PrivateKey if is_private else ed25519.Ed25519PublicKey):
        raise NoKey(f"{name} has no key of ed25519 (--help)")
    return key


def enclose(statement: dict[str, Any], key: Any = None) -> str:
    """The text of an envelope of a statement. Without a key it has no signature."""
    body = json.dumps(statement, sort_keys=True, separators=(",", ":")).encode()
    signatures = [] if key is None else [
        {"sig": base64.b64encode(key.sign(signed_bytes(body))).decode()}]
    envelope = {"payloadType": PAYLOAD, "payload": base64.b64encode(body).decode(),
                "signatures": signatures}
    return json.dumps(envelope, indent=1) + "\n"
