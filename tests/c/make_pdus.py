"""Writes pdus.h for c/test.c: every Network PDU of vectors/mp_samples.json with its parts, PDUs to reserved groups, PDUs with one SRC and SEQ
under two IV Indexes, random PDUs under the credentials of random network keys, and PDUs with addresses that are not allowed.

  python3 tests/c/make_pdus.py > pdus.h

MP has no sample to a reserved group and none of the two IV Indexes, and no function of ours seals an address that is not allowed, so those PDUs
are sealed here, by OpenSSL (python3-cryptography), from MP 3.4, and so are the random ones; their credentials are derived by OpenSSL, too.
"""
import json
import random
import sys
from pathlib import Path

from cryptography.hazmat.primitives.ciphers import Cipher, algorithms, modes
from cryptography.hazmat.primitives.ciphers.aead import AESCCM

ROOT = Path(__file__).resolve().parents[2]
sys.path.insert(0, str(ROOT / "tests" / "ciphers"))
from compare import k2  # noqa: E402

SAMPLES = json.loads((ROOT / "vectors" / "mp_samples.json").read_text())
FIRST = SAMPLES["messages"][0]
RANDOM = 200


def array(octets):
    return "{" + ", ".join(f"0x{x:02x}" for x in octets) + "}"


def credential(message):
    return bytes.fromhex(message["nid"] + message["encryption_key"] + message["privacy_key"])


def sealed(cred, iv_index, ctl, ttl, seq, src, dst, transport):
    """A Network PDU octet by octet (MP 3.4.4, 3.8.7)."""
    front = bytes([ctl << 7 | ttl]) + seq.to_bytes(3, "big") + src.to_bytes(2, "big")
    iv = iv_index.to_bytes(4, "big")
    nonce = b"\x00" + front + b"\x00\x00" + iv
    body = AESCCM(cred[1:17], tag_length=8 if ctl else 4).encrypt(nonce, dst.to_bytes(2, "big") + transport, None)
    pecb = Cipher(algorithms.AES(cred[17:]), modes.ECB()).encryptor().update(bytes(5) + iv + body[:7])
    return bytes([(iv_index & 1) << 7 | cred[0]]) + bytes(a ^ b for a, b in zip(front, pecb)) + body


def row(name, cred, iv_index, ctl, ttl, seq, src, dst, transport, pdu):
    """A PDU with its parts, as an element of an array of struct mp_pdu."""
    return (f'    {{"{name}", {array(cred)}, 0x{iv_index:08x}, {ctl}, {ttl}, 0x{seq:06x}, 0x{src:04x}, 0x{dst:04x},'
            f' {len(transport)}, {array(transport)}, {len(pdu)}, {array(pdu)}}},')


def main():
    print("/* Made by tests/c/make_pdus.py from vectors/mp_samples.json. */")
    print("#define MP_NET_KEY", array(bytes.fromhex(FIRST["net_key"])))
    print("#define MP_CREDENTIAL", array(credential(FIRST)))
    print("static const struct mp_pdu { const char *name; uint8_t credential[33]; uint32_t iv_index; uint8_t ctl, ttl; uint32_t seq; uint16_t src, dst;")
    print("    size_t transport_len; uint8_t transport[16]; size_t pdu_len; uint8_t pdu[29]; } mp_pdus[] = {")
    for message in SAMPLES["messages"]:
        for pdu in message["pdus"]:
            iv_index, seq, src, dst = (int(text, 16) for text in (message["iv_index"], pdu["seq"], message["src"], message["dst"]))
            print(row(f"MP {message['section']}, SEQ {pdu['seq']}", credential(message), iv_index, message["ctl"], message["ttl"], seq, src, dst,
                      bytes.fromhex(pdu["lower_transport_pdu"]), bytes.fromhex(pdu["network_pdu"])))
    print("};")
    print("static const struct mp_pdu reserved_pdus[] = {")
    for dst in (0xFF00, 0xFFFB):
        for ctl in (0, 1):
            said = credential(FIRST), 0x12345678, ctl, 5, 78, 0x0001, dst, b"\x01\x02\x03"
            print(row(f"DST {dst:04x} with CTL {ctl}", *said, sealed(*said)))
    print("};")
    print("static const struct mp_pdu twice_pdus[] = {")
    for ctl in (0, 1):
        for iv_index in (0x12345677, 0x12345678):
            said = credential(FIRST), iv_index, ctl, 5, 0, 0x0001, 0x1201, b"\x01\x02\x03"
            print(row(f"SEQ 000000 under IV Index {iv_index:08x} with CTL {ctl}", *said, sealed(*said)))
    print("};")
    dice = random.Random(6)
    keys = [dice.randbytes(16) for _ in range(RANDOM)]
    print("static const uint8_t openssl_keys[][16] = {", *(f"    {array(key)}," for key in keys), "};", sep="\n")
    print("static const struct mp_pdu openssl_pdus[] = {")
    for number, key in enumerate(keys):
        ctl = dice.randrange(2)
        said = (bytes.fromhex(k2(key)), dice.randrange(1 << 32), ctl, dice.randrange(128), dice.randrange(1 << 24), dice.randrange(1, 0x8000),
                dice.choice([dice.randrange(1, 0x8000), dice.randrange(0xC000, 0x10000)]), dice.randbytes(dice.randint(1, 12 if ctl else 16)))
        print(row(f"PDU {number} of OpenSSL", *said, sealed(*said)))
    print("};")
    print("static const struct { const char *name; uint32_t iv_index; size_t pdu_len; uint8_t pdu[29]; } unallowed[] = {")
    for name, ctl, src, dst in (("SRC unassigned", 0, 0x0000, 0x0001), ("SRC virtual", 0, 0x8000, 0x0001), ("SRC a group", 1, 0xC000, 0x0001),
                                ("SRC reserved, first", 0, 0xFF00, 0x0001), ("SRC reserved, last", 1, 0xFFFB, 0x0001),
                                ("DST unassigned", 0, 0x0001, 0x0000), ("DST virtual with CTL 1", 1, 0x0001, 0xBFFF)):
        pdu = sealed(credential(FIRST), 0x12345678, ctl, 5, 77, src, dst, b"\x01\x02\x03")
        print(f'    {{"{name}", 0x12345678, {len(pdu)}, {array(pdu)}}},')
    print("};")
    # the sealing here is MP's: it makes MP's own PDUs
    for message in SAMPLES["messages"]:
        for pdu in message["pdus"]:
            made = sealed(credential(message), int(message["iv_index"], 16), message["ctl"], message["ttl"], int(pdu["seq"], 16), int(message["src"], 16),
                          int(message["dst"], 16), bytes.fromhex(pdu["lower_transport_pdu"]))
            assert made.hex() == pdu["network_pdu"], message["section"]


if __name__ == "__main__":
    main()
