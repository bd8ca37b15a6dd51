"""The ciphers and forms here give what MP section 8, RFC 3610 and document 01's examples print, and the model hears, sends and vets MP's messages."""
import json
from pathlib import Path

import network
import transport
from ciphers import aes, ccm_open, ccm_seal, cmac, k2, k4, label_address, s1
from language import Console

VECTORS = Path(__file__).resolve().parents[2] / "vectors"
# RFC 3610, section 8, packet vectors 1 to 6: the nonce's first octets, where the additional data ends and the message begins, where that ends, and both
# sealed with a MIC of 8 octets. A packet has the octets 00, 01, 02 and so on; the key has c0 to cf, the nonce ends in a0 to a5.
PACKETS = (
    ("00000003020100", 8, 31, "588c979a61c663d2f066d0c2c0f989806d5f6b61dac38417e8d12cfdf926e0"),
    ("00000004030201", 8, 32, "72c91a36e135f8cf291ca894085c87e3cc15c439c9e43a3ba091d56e10400916"),
    ("00000005040302", 8, 33, "51b1e5f44a197d1da46b0f8e2d282ae871e838bb64da8596574adaa76fbd9fb0c5"),
    ("00000006050403", 12, 31, "a28c6865939a9a79faaa5c4c2a9d4a91cdac8c96c861b9c9e61ef1"),
    ("00000007060504", 12, 32, "dcf1fb7b5d9e23fb9d4e131253658ad86ebdca3e51e83f077d9c2d93"),
    ("00000008070605", 12, 33, "6fc1b011f006568b5171a42d953d469b2570a4bd87405a0443ac91cb94"))
# MP 8.3.22 to 8.3.24: the labels with their addresses; and each message by its section, the label's place, TransMIC, SEQ, access payload and PDUs.
LABELS = (("0073e7e4d8b9440faf8415df4c56c0e1", "b529"), ("f4a002c7fb1e4ca0a469a021de0db875", "9736"))
TO_LABELS = (
    ("8.3.22", 0, 4, "07080b", "d50a0048656c6c6f", ("e8d85caecef1e3ed31f3fdcf88a411135fea55df730b6b28e255",)),
    ("8.3.23", 1, 4, "07080c", "d50a0048656c6c6f", ("e877a48dd5fe2d7a9d696d3dd16a75489696f0b70c711b881385",)),
    ("8.3.24", 1, 8, "07080d", "ea0a00576f726c64", ("e8624e65bb8c1794e998b4081f47a35251fdd3896d99e4db489b918599",
                                                    "e8a7d0f0a2ea42dc2f4dd6fb4db33a6c088d023b47")))


def _numbers(message, *names):
    return [int(message[name], 16) for name in names]


def _ciphers():
    """FIPS 197 and RFC 4493, as (name, given, printed)."""
    vectors = json.loads((VECTORS / "ciphers.json").read_text())
    for each in vectors["aes"]:
        yield each["name"], aes(bytes.fromhex(each["key"]), bytes.fromhex(each["block"])).hex(), each["out"]
    for each in vectors["cmac"]:
        yield each["name"], cmac(bytes.fromhex(each["key"]), bytes.fromhex(each["message"])).hex(), each["out"]
    key, end = bytes(range(0xC0, 0xD0)), bytes(range(0xA0, 0xA6))
    for number, (start, begin, last, sealed) in enumerate(PACKETS, 1):
        nonce, data, message = bytes.fromhex(start) + end, bytes(range(begin)), bytes(range(begin, last))
        yield f"RFC 3610, packet vector {number}", ccm_seal(key, nonce, message, 8, data).hex(), sealed
        yield f"RFC 3610, packet vector {number}, opened", ccm_open(key, nonce, bytes.fromhex(sealed), 8, data), message
        yield f"RFC 3610, packet vector {number}, without its data", ccm_open(key, nonce, bytes.fromhex(sealed), 8), None


def _derived(credentials):
    return f"{credentials.nid:02x} {credentials.encryption.hex()} {credentials.privacy.hex()}"


def _printed(each):
    return f'{each["nid"]} {each["encryption_key"]} {each["privacy_key"]}'


def _functions(functions):
    """MP 8.1 and 8.2: s1, k2 and k4; friendship's k2 is not in the base."""
    for each in functions:
        section = "MP " + each["section"]
        if each["fn"] == "s1":
            yield section, s1(each["m_ascii"].encode()).hex(), each["out"]
        elif each["fn"] == "k2" and each["p"] == "00":
            yield section, _derived(k2(bytes.fromhex(each["n"]))), _printed(each)
        elif each["fn"] == "k4":
            yield section, f'{k4(bytes.fromhex(each["n"])):02x}', each["out"]


def _access(message):
    """The securing of an access payload; a virtual destination's has its label as additional data."""
    iv_index, seq, src, dst = _numbers(message, "iv_index", "app_seq", "src", "dst")
    key = bytes.fromhex(message["app_key"] if message["akf"] else message["dev_key"])
    made = transport.secure(key, not message["akf"], 8 if message["szmic"] else 4, seq, src, dst, iv_index, bytes.fromhex(message["access_payload"]),
                            bytes.fromhex(message.get("label_uuid", "")))
    return made.hex(), message["encrypted_access_payload"] + message["trans_mic"]


def _messages(messages):
    """Sealing and opening of MP's Network PDUs, and the securing of what they carry."""
    for message in messages:
        section = "MP " + message["section"]
        derived = k2(bytes.fromhex(message["net_key"]))
        if message["credentials"] != "flooding":
            continue
        yield section, _derived(derived), _printed(message)
        iv_index, src, dst = _numbers(message, "iv_index", "src", "dst")
        for pdu in message["pdus"]:
            said = (message["ctl"], message["ttl"], int(pdu["seq"], 16), src, dst, bytes.fromhex(pdu["lower_transport_pdu"]))
            yield section, network.seal(derived, iv_index, *said).hex(), pdu["network_pdu"]
            yield section, network.unseal(derived, iv_index, bytes.fromhex(pdu["network_pdu"])), said
        if "access_payload" in message:
            yield section, *_access(message)


def _hearing(messages):
    """MP's message 6, two segments under the device key, heard by the model's console."""
    message = next(each for each in messages if each["section"] == "8.3.6")
    console = Console()
    setup = f'netkey {message["net_key"]}', f'devkey {message["dev_key"]}', f'elements {message["dst"]} 0', f'ivindex {message["iv_index"]} 0', "setup"
    for line in setup:
        console.answer(line.encode())
    answers = [console.answer(f'hear {pdu["network_pdu"]}'.encode())[0] for pdu in message["pdus"]]
    start = f'src {message["src"]}', f'iv {message["iv_index"]}', message["app_seq"]
    yield "MP 8.3.6, heard", answers, [
        f"stored {start[0]} {start[1]} auth {start[2]} bits 00000001 trials 1 0",
        f'access {start[0]} dst {message["dst"]} net 0 key dev {start[1]} seq {start[2]} trials 1 0 message {message["access_payload"]}']


def _labels(messages):
    """MP's two labels have their addresses, and the model's console hears the three messages to them and sends them."""
    for label, address in LABELS:
        yield f"MP's label {label}", f"{label_address(bytes.fromhex(label)):04x}", address
    message = next(each for each in messages if each["section"] == "8.3.22")
    held = [f"label {label}" for label, _ in LABELS]
    keys = f'netkey {message["net_key"]}', f'appkey 0 {message["app_key"]}', f'ivindex {message["iv_index"]} 0', *held
    hears, sends = Console(), Console()
    for console, elements in ((hears, "1201 0"), (sends, f'{message["src"]} {message["app_seq"]}')):
        for line in (*keys, f"elements {elements}", "setup"):
            console.answer(line.encode())
    start = f'src {message["src"]}', f'iv {message["iv_index"]}'
    for section, place, mic, seq, payload, pdus in TO_LABELS:
        answers = [hears.answer(f"hear {pdu}".encode())[0] for pdu in pdus]
        yield f"MP {section}, heard", answers[-1], (f"access {start[0]} dst {LABELS[place][1]} label {place} net 0 key 0 {start[1]} seq {seq} trials 1 1"
                                                    f" message {payload}")
        begun = sends.answer(f'access 0 label:{place} {message["ttl"]} 0 0 {mic} {payload}'.encode())
        rest = [sends.answer(f"segment {at}".encode())[0] for at in range(1, len(pdus))]
        wanted = [f"sent {pdus[0]}" if mic == 4 else f"started {pdus[0]} segments {len(pdus)}"] + [f"sent {pdu}" for pdu in pdus[1:]]
        yield f"MP {section}, sent", begun + rest, wanted


def _vetting(messages):
    """The transport PDUs of MP's message 6 are the segments of its access payload, secured; the first alone is no message."""
    message = next(each for each in messages if each["section"] == "8.3.6")
    pdus, console = [pdu["lower_transport_pdu"] for pdu in message["pdus"]], Console()
    answers = [console.answer(f"vet 0 {' '.join(each)}".encode())[0] for each in (pdus, pdus[:1])]
    yield "MP 8.3.6, vetted", answers, [f'approved message {message["encrypted_access_payload"]}{message["trans_mic"]}', "refused 27"]


def _examples():
    """Document 01, E1 to E12."""
    yield "E1", network.fitting_index(0x00101847, 1), 0x00101847
    yield "E2", network.fitting_index(0x00101847, 0), 0x00101846
    yield "E3", network.fitting_index(0, 1), None
    yield "E4", transport.seq_auth(0x647262, 0x1849), 0x645849
    yield "E5", transport.seq_auth(0x647262, 0x1263), 0x645263
    yield "E6", transport.seq_auth(5, 6), None
    yield "E7", transport.seq_auth(5, 5), 5
    yield "E8", transport.segment_header(0x66, 0, 0x1849, 1, 3).hex(), "e6612423"
    yield "E9", transport.acknowledgement(0, 0x1849, 1 << 0 | 1 << 3).hex(), "00612400000009"
    yield "E10", [len(each) - 4 for each in transport.cut(0, 0x66, 0, 0, bytes(42))], [12, 12, 12, 6]
    yield "E11", [len(each) - 4 for each in transport.cut(1, 0x01, 0, 0, bytes(42))], [8, 8, 8, 8, 8, 2]
    yield "E12", transport.all_bits(31), 0xFFFFFFFF


def check():
    """How many values were compared; raises AssertionError with the name of the first that differs."""
    samples = json.loads((VECTORS / "mp_samples.json").read_text())
    functions, messages = samples["functions"], samples["messages"]
    count = 0
    heard = (*_hearing(messages), *_labels(messages), *_vetting(messages))
    for name, made, printed in (*_ciphers(), *_functions(functions), *_messages(messages), *heard, *_examples()):
        assert made == printed, f"{name}: {made} instead of {printed}"
        count += 1
    return count
