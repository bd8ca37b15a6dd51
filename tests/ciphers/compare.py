"""Compares the program `samples` with OpenSSL's AES, CMAC and CCM, with k2 and k4 written here from MP 3.8.2, and with RFC 3610's packet vectors.

  python3 tests/ciphers/compare.py [SEED..]

Each seed makes a few hundred requests: every length of message around a block's and the longest, every length of additional data around a
block's and an octet's greatest number, both MIC sizes, sealed messages and additional data that are whole, damaged by one bit, cut or
lengthened. It prints how often each kind of request and answer occurred, and fails where one differs.
"""
import json
import random
import subprocess
import sys
from collections import Counter
from pathlib import Path

from cryptography.exceptions import InvalidTag
from cryptography.hazmat.primitives.ciphers import Cipher, algorithms, modes
from cryptography.hazmat.primitives.ciphers.aead import AESCCM
from cryptography.hazmat.primitives.cmac import CMAC

ROOT = Path(__file__).resolve().parents[2]
# The program reads no more than this at once.
MOST = 65536
LENGTHS = [0, 1, 2, 11, 12, 13, 15, 16, 17, 22, 31, 32, 33, 48, 64, 100, 255, 256, 376, 380, 383, 384]
# Octets of additional data: 14 of them are in its first block, behind the two of its length.
DATA = [0, 1, 13, 14, 15, 16, 17, 30, 31, 255, 256]


def aes(key, block):
    return Cipher(algorithms.AES(key), modes.ECB()).encryptor().update(block)


def cmac(key, message):
    mac = CMAC(algorithms.AES(key))
    mac.update(message)
    return mac.finalize()


def k2(key):
    t = cmac(cmac(bytes(16), b"smk2"), key)
    t1 = cmac(t, b"\x00\x01")
    t2 = cmac(t, t1 + b"\x00\x02")
    return f"{t1[15] & 0x7F:02x} {t2.hex()} {cmac(t, t2 + bytes([0, 3])).hex()}"


def k4(key):
    return f"{cmac(cmac(cmac(bytes(16), b'smk4'), key), b'id6' + bytes([1]))[15] & 0x3F:02x}"


def opened(key, nonce, size, sealed, additional=None):
    if len(sealed) < size or len(sealed) - size > 384:
        return "refused"
    try:
        return AESCCM(key, tag_length=size).decrypt(nonce, sealed, additional).hex() or "-"
    except InvalidTag:
        return "refused"


def damaged(dice, octets):
    """The octets, whole, with one bit changed, cut by one, or one longer."""
    how = dice.randrange(4)
    if how == 1 and octets:
        at = dice.randrange(8 * len(octets))
        return octets[:at // 8] + bytes([octets[at // 8] ^ 1 << at % 8]) + octets[at // 8 + 1:]
    return octets[:-1] if how == 2 else octets + b"\x00" if how == 3 else octets


def requests(seed):
    """Each request with OpenSSL's answer to it."""
    dice = random.Random(seed)
    for turn in range(120):
        key, block, nonce = dice.randbytes(16), dice.randbytes(16), dice.randbytes(13)
        message = dice.randbytes(LENGTHS[turn % len(LENGTHS)])
        text = message.hex() or "-"
        yield f"aes {key.hex()} {block.hex()}", aes(key, block).hex()
        yield f"cmac {key.hex()} {text}", cmac(key, message).hex()
        yield f"s1 {text}", cmac(bytes(16), message).hex()
        yield f"k2 {key.hex()}", k2(key)
        yield f"k4 {key.hex()}", k4(key)
        for size in (4, 8):
            sealed = AESCCM(key, tag_length=size).encrypt(nonce, message, None)
            yield f"seal {key.hex()} {nonce.hex()} {size} {text}", sealed.hex()
            tried = damaged(dice, sealed)
            if len(tried) <= 392:
                yield f"open {key.hex()} {nonce.hex()} {size} {tried.hex()}", opened(key, nonce, size, tried)


def with_data(seed):
    """Each request with additional data, and OpenSSL's answer to it."""
    dice = random.Random(seed)
    for many in DATA:
        for length in [0, 1, 15, 16, 17, dice.choice(LENGTHS)]:
            key, nonce, additional, message = (dice.randbytes(n) for n in (16, 13, many, length))
            for size in (4, 8):
                terms = f"{key.hex()} {nonce.hex()} {size}"
                sealed = AESCCM(key, tag_length=size).encrypt(nonce, message, additional)
                yield f"sealwith {terms} {additional.hex() or '-'} {message.hex() or '-'}", sealed.hex()
                for data, tried in ((additional, sealed), (damaged(dice, additional), sealed), (additional, damaged(dice, sealed))):
                    if len(tried) <= 392:
                        yield f"openwith {terms} {data.hex() or '-'} {tried.hex()}", opened(key, nonce, size, tried, data)


def packets():
    """Each packet of RFC 3610, both ways, and opened with no additional data, with the answer that is printed there."""
    for vector in json.loads((ROOT / "vectors" / "ciphers.json").read_text())["ccm"]:
        key, nonce, additional, message, sealed = (vector[name] for name in ("key", "nonce", "additional", "message", "out"))
        given = (bytes.fromhex(text) for text in (key, nonce, message, additional))
        made = AESCCM(next(given), tag_length=8).encrypt(*given).hex()
        if made != sealed:
            sys.exit(f"RFC 3610, {vector['name']}\n  OpenSSL: {made}\n  written here: {sealed}")
        yield f"sealwith {key} {nonce} 8 {additional} {message}", sealed
        yield f"openwith {key} {nonce} 8 {additional} {sealed}", message
        yield f"openwith {key} {nonce} 8 - {sealed}", "refused"
        yield f"open {key} {nonce} 8 {sealed}", "refused"


def answers(lines):
    """What the program answers, asked in portions that it reads whole."""
    got, portion, size = [], [], 0
    for line in lines + [None]:
        if line is None or size + len(line) + 1 > MOST:
            text = "".join(each + "\n" for each in portion)
            run = subprocess.run([str(ROOT / "bin" / "program"), "samples"], input=text, capture_output=True, text=True, check=True)
            got += run.stdout.splitlines()
            portion, size = [], 0
        if line is not None:
            portion.append(line)
            size += len(line) + 1
    return got


def compare(source, asked, counts):
    """Asks the program, and counts its answers by their kind."""
    got = answers([line for line, _ in asked])
    if len(got) != len(asked):
        sys.exit(f"{source}: {len(asked)} requests, {len(got)} answers")
    for (line, expected), answer in zip(asked, got):
        if answer != expected:
            sys.exit(f"{source}: {line}\n  expected: {expected}\n  samples: {answer}")
        counts[line.split()[0] + (" refused" if answer == "refused" else "")] += 1


def main():
    counts = Counter()
    compare("RFC 3610", list(packets()), counts)
    for seed in [int(word) for word in sys.argv[1:]] or [1, 2, 3]:
        compare(f"seed {seed}", [*requests(seed), *with_data(seed)], counts)
    print("  ".join(f"{kind}: {count}" for kind, count in sorted(counts.items())))
    if not all(counts[kind] for kind in ("open", "open refused", "openwith", "openwith refused")):
        sys.exit("an answer did not occur")


if __name__ == "__main__":
    main()
