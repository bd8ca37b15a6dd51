"""Opens every Network PDU that the wind box and the training bench send, with OpenSSL, and compares what they say.

  python3 tests/site/compare.py

The programs are held to the files crates/wind_box/stdout and crates/training_bench/stdout, which are read here. Keys and IV Index are those of
vectors/mp_samples.json. Everything that a PDU says is compared: NID, CTL, TTL, SEQ, SRC, DST and the transport PDU down to the message.
"""
import json
import sys
from pathlib import Path

from cryptography.exceptions import InvalidTag
from cryptography.hazmat.primitives.ciphers import Cipher, algorithms, modes
from cryptography.hazmat.primitives.ciphers.aead import AESCCM

ROOT = Path(__file__).resolve().parents[2]
MP = json.loads((ROOT / "vectors" / "mp_samples.json").read_text())
SAMPLE = MP["messages"][0]
ENCRYPTION, PRIVACY, APPLICATION = (bytes.fromhex(SAMPLE[name]) for name in ("encryption_key", "privacy_key", "app_key"))
NID = int(SAMPLE["nid"], 16)
AID = next(int(v["out"], 16) for v in MP["functions"] if v["fn"] == "k4" and v["n"] == SAMPLE["app_key"])
IV = bytes.fromhex(SAMPLE["iv_index"])
# The TTL that both programs name, and the one of an acknowledgement, which is left unnamed.
NAMED_TTL, UNNAMED_TTL = 7, 4


def expect(found, wanted, what):
    """Stops where two things differ."""
    if found != wanted:
        sys.exit(f"{what}: {found} is sent, {wanted} is expected")


def opened(pdu, ctl, ttl, seq, src, dst):
    """The transport PDU of a Network PDU (MP 3.4, 3.8.7), whose front must be as said."""
    what = f"SEQ {seq:06x}"
    expect(pdu[0], (IV[3] & 1) << 7 | NID, f"{what}, octet 0")
    pad = Cipher(algorithms.AES(PRIVACY), modes.ECB()).encryptor().update(bytes(5) + IV + pdu[7:14])
    front = bytes(a ^ b for a, b in zip(pdu[1:7], pad))
    expect(front.hex(), f"{ctl << 7 | ttl:02x}{seq:06x}{src:04x}", f"{what}, CTL, TTL, SEQ and SRC")
    nonce = b"\x00" + front + b"\x00\x00" + IV
    try:
        body = AESCCM(ENCRYPTION, tag_length=8 if ctl else 4).decrypt(nonce, pdu[7:], None)
    except InvalidTag:
        sys.exit(f"{what}: the NetMIC is wrong")
    expect(body[:2].hex(), f"{dst:04x}", f"{what}, DST")
    return body[2:]


def unsecured(upper, seq, src, dst):
    """The access payload under the application key (MP 3.6.4.1, 3.8.7.1), with the 4-octet TransMIC."""
    nonce = bytes([1, 0]) + seq.to_bytes(3, "big") + src.to_bytes(2, "big") + dst.to_bytes(2, "big") + IV
    try:
        return AESCCM(APPLICATION, tag_length=4).decrypt(nonce, upper, None)
    except InvalidTag:
        sys.exit(f"SEQ {seq:06x}: the TransMIC is wrong")


def sent(lines):
    """The PDUs of an output, each with its SEQ."""
    return [(int(line[4:10], 16), bytes.fromhex(line[12:])) for line in lines if line.startswith("SEQ ")]


def lines_of(program, name):
    """A file of a program's crate, line by line."""
    return (ROOT / "crates" / program / name).read_text().splitlines()


def compare_wind_box(src=0x0101, dst=0xC0A1, first=0x000100):
    """Each digit of the input is sent as a status, with one SEQ after the other."""
    forces = [int(octet) for line in lines_of("wind_box", "stdin") for octet in line if octet in "0123456789"]
    pdus = sent(lines_of("wind_box", "stdout"))
    expect(len(pdus), len(forces), "the wind box: how many statuses")
    for place, (force, (seq, pdu)) in enumerate(zip(forces, pdus)):
        expect(seq, first + place, "the wind box: SEQ")
        transport = opened(pdu, 0, NAMED_TTL, seq, src, dst)
        expect(transport[0], 1 << 6 | AID, "the wind box: SEG, AKF and AID")
        expect(unsecured(transport[1:], seq, src, dst), bytes([0xC1, 0xFF, 0xFF, force]), "the wind box: the status")
    return len(pdus)


def compare_bench(sender=0x0102, station=0x0201, first=0x000200, acknowledged=0x000300):
    """The segments carry the message that is read back, and the last PDU acknowledges all of them."""
    lines = lines_of("training_bench", "stdout")
    *segments, (seq, acknowledgement) = sent(lines)
    text = lines[lines.index(f"access message from {sender:04x}:") + 1]
    last, upper = len(segments) - 1, b""
    for place, (number, pdu) in enumerate(segments):
        expect(number, first + place, "the bench: SEQ")
        transport = opened(pdu, 0, NAMED_TTL, number, sender, station)
        header = 1 << 31 | 1 << 30 | AID << 24 | first % 8192 << 10 | place << 5 | last
        expect(transport[:4].hex(), f"{header:08x}", f"the bench: the header of segment {place}")
        upper += transport[4:]
    expect(len(upper), len(text) + 4, "the bench: the length of the message")
    expect(unsecured(upper, first, sender, station), text.encode(), "the bench: the message")
    expect(seq, acknowledged, "the bench: the acknowledgement's SEQ")
    transport = opened(acknowledgement, 1, UNNAMED_TTL, seq, station, sender)
    expect(transport.hex(), f"00{first % 8192 << 2:04x}{2 ** len(segments) - 1:08x}", "the bench: the acknowledgement")
    return len(segments)


def main():
    print(f"wind box: {compare_wind_box()} statuses, bench: {compare_bench()} segments and their acknowledgement")


if __name__ == "__main__":
    main()
