"""AES-128's modes and MP's key derivation, over OpenSSL's block cipher.

Only the single block is OpenSSL's (Debian's python3-cryptography). CMAC is written here from RFC 4493, CCM from RFC 3610 with a 13-octet
nonce and additional data of fewer than 0xFF00 octets, s1, k2 and k4 from MP 3.8.2, and a label's address from MP 3.4.2.3.
"""
from collections import namedtuple
from functools import lru_cache

from cryptography.hazmat.primitives.ciphers import Cipher, algorithms, modes

# What k2 gives of a network key.
Credentials = namedtuple("Credentials", "nid encryption privacy")


@lru_cache(maxsize=4096)
def _encryptor(key):
    return Cipher(algorithms.AES(key), modes.ECB()).encryptor()


def aes(key, blocks):
    """Each block of sixteen octets, encrypted by itself."""
    return _encryptor(key).update(blocks)


def xor(left, right):
    """The octets of both up to the shorter one's end, added bit by bit."""
    return bytes(a ^ b for a, b in zip(left, right))


def _doubled(block):
    """RFC 4493, 2.3: a shift to the left by one, and 0x87 where a bit falls out."""
    number = int.from_bytes(block, "big") << 1
    if number >> 128:
        number = number & (1 << 128) - 1 ^ 0x87
    return number.to_bytes(16, "big")


def _chained(key, octets):
    """The last block of the cipher block chain over whole blocks, begun with zeros."""
    state = bytes(16)
    for at in range(0, len(octets), 16):
        state = aes(key, xor(state, octets[at:at + 16]))
    return state


def cmac(key, message):
    """RFC 4493, 2.4."""
    subkey = _doubled(aes(key, bytes(16)))
    whole = len(message) > 0 and len(message) % 16 == 0
    if not whole:
        message += b"\x80" + bytes(-(len(message) + 1) % 16)
        subkey = _doubled(subkey)
    return _chained(key, message[:-16] + xor(message[-16:], subkey))


def _padded(octets):
    return octets + bytes(-len(octets) % 16)


def _ccm_mac(key, nonce, message, size, data):
    """RFC 3610, 2.2: the whole authentication field before it is encrypted."""
    first = bytes([(64 if data else 0) | (size - 2) // 2 << 3 | 1]) + nonce + len(message).to_bytes(2, "big")
    before = _padded(len(data).to_bytes(2, "big") + data) if data else b""
    return _chained(key, first + before + _padded(message))


def _ccm_stream(key, nonce, length):
    """RFC 3610, 2.3: the key stream, S_0 first."""
    return aes(key, b"".join(b"\x01" + nonce + at.to_bytes(2, "big") for at in range(1 + (length + 15) // 16)))


def ccm_seal(key, nonce, message, size, data=b""):
    """The encrypted message with its MIC of 4 or 8 octets behind it; the additional data is authenticated with it and not sent."""
    stream = _ccm_stream(key, nonce, len(message))
    return xor(message, stream[16:]) + xor(_ccm_mac(key, nonce, message, size, data), stream)[:size]


def ccm_open(key, nonce, sealed, size, data=b""):
    """The message, or None where the MIC does not fit."""
    body, mic = sealed[:-size], sealed[-size:]
    stream = _ccm_stream(key, nonce, len(body))
    message = xor(body, stream[16:])
    return message if xor(_ccm_mac(key, nonce, message, size, data), stream)[:size] == mic else None


@lru_cache(maxsize=64)
def s1(text):
    """MP 3.8.2.4."""
    return cmac(bytes(16), text)


@lru_cache(maxsize=4096)
def k2(key):
    """MP 3.8.2.6, with P = 00: a network key's NID, encryption key and privacy key."""
    t = cmac(s1(b"smk2"), key)
    t1 = cmac(t, b"\x00\x01")
    t2 = cmac(t, t1 + b"\x00\x02")
    t3 = cmac(t, t2 + b"\x00\x03")
    return Credentials(t1[15] & 0x7F, t2, t3)


@lru_cache(maxsize=4096)
def k4(key):
    """MP 3.8.2.8: an application key's AID."""
    return cmac(cmac(s1(b"smk4"), key), b"id6\x01")[15] & 0x3F


@lru_cache(maxsize=65536)
def label_address(label):
    """MP 3.4.2.3: the virtual address of a Label UUID, the low 14 bits of its hash behind the bits 10."""
    return 0x8000 | int.from_bytes(cmac(s1(b"vtad"), label)[14:], "big") & 0x3FFF
