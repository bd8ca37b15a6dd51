"""Makes crates/samples/stdin (requests), crates/samples/stdout (their answers) and crates/spoken/stdout from ciphers.json and mp_samples.json.

  python3 vectors/make_samples.py            writes the files
  python3 vectors/make_samples.py --check    writes nothing; fails, and names the first difference, where the files differ

Every answer is what a document prints: nothing here computes a cipher. Two are known without one: `refused`, for what was damaged by
one bit after it was sealed, is shorter than its MIC or falls under the definition of a refusal (document 01), and `unread`, for a line
that is no request. A line that begins with # names the document and the section of what follows, or says why a sample is left out.
"""
import json
import sys
from itertools import zip_longest
from pathlib import Path

from spoken import spoken

HERE = Path(__file__).resolve().parent
CRATES = HERE.parent / "crates"
# The program reads no more than this.
MOST = 65536
# Lines that are no request, by what is wrong with them.
UNREAD = (
    ("the word", ("", " ", "aes", "k3 {key}", "AES {key} {block}", "aes128 {key} {block}", " aes {key} {block}", "\taes {key} {block}")),
    ("a field too few", ("aes {key}", "aes {key} ", "cmac {key}", "cmac {key} ", "seal {key} {nonce} 4", "open {key} {nonce} 4", "s1", "k2", "k4 ",
                         "sealwith {key} {nonce} 4 00", "openwith {key} {nonce} 4 {block}")),
    ("a field too many", ("aes {key} {block} 00", "aes {key} {block} ", "cmac {key} - -", "s1 00 00", "k2 {key} 00", "k4 {key} -", "sealwith {key} {nonce} 4 - 00 00")),
    ("not one space between fields", ("aes  {key} {block}", "aes {key}  {block}", "aes {key}\t{block}", "aes {key} {block}\r")),
    ("a key, block or nonce of a wrong length", (
        "aes {key}00 {block}", "aes 00 {block}", "aes - {block}", "aes {key} {block}00", "aes {key} 00", "aes {key} -", "cmac 00 -",
        "seal {key} {nonce}00 4 00", "seal {key} 00 4 00", "open {key} {nonce}00 4 {block}", "open {key}00 {nonce} 4 {block}",
        "k2 {key}00", "k2 00", "k4 -")),
    ("a MIC of neither 4 nor 8 octets", (
        "seal {key} {nonce} 0 00", "seal {key} {nonce} 6 00", "seal {key} {nonce} 16 00", "open {key} {nonce} 44 {block}",
        "open {key} {nonce} - {block}", "open {key} {nonce} 04 {block}", "sealwith {key} {nonce} 6 00 00", "openwith {key} {nonce} - 00 {block}")),
    ("not hex, or half an octet", tuple("s1 " + text for text in ("0", "000", "0g", "g0", "0x00", "/0", ":0", "@0", "`0", "G0", "é", "--", "-00"))),
    ("more octets than are read", (
        "s1 {most}00", "cmac {key} {most}00", "seal {key} {nonce} 8 {most}00", "open {key} {nonce} 8 {whole}00",
        "sealwith {key} {nonce} 8 {most}00 00", "sealwith {key} {nonce} 8 00 {most}00", "openwith {key} {nonce} 8 00 {whole}00")),
)
# What netseal refuses, from CTL on, by what is wrong with it.
REFUSED = (
    ("TTL above 127", ("0 80 000001 0003 1201 00", "0 ff 000001 0003 1201 00", "1 80 000001 0003 1201 00")),
    ("SRC unassigned, virtual or a group", tuple(f"0 04 000001 {src} 1201 00" for src in ("0000", "8000", "bfff", "c000", "ffff"))),
    ("DST unassigned", ("0 04 000001 0003 0000 00", "1 04 000001 0003 0000 00")),
    ("DST virtual with CTL 1", ("1 04 000001 0003 8000 00", "1 04 000001 0003 b529 00", "1 04 000001 0003 bfff 00")),
    ("more than 12 octets of transport with CTL 1", ("1 04 000001 0003 1201 " + "00" * 13, "1 04 000001 0003 1201 " + "00" * 16)),
)
# The fields of a request on a Network PDU, each with texts that are not of its form; {..} stands for what is.
NETSEAL = (
    ("{key}", ("-", "00", "{key}00", "{key}{key}")),
    ("{iv}", ("-", "123456", "{iv}00")),
    ("0", ("-", "2", "00", "01", "+")),
    ("04", ("-", "4", "0400")),
    ("000001", ("-", "0001", "00000001")),
    ("0003", ("-", "03", "000003")),
    ("1201", ("-", "12", "120100")),
    ("8000", ("", "-", "8", "80 00", "8000 ", "{transport}00")),
)
NETOPEN = (
    ("{key}", ("-", "00", "{key}00", "{key}{key}00", "{key}{key}{key}{key}{key}")),
    ("{iv}", ("-", "123456", "{iv}00")),
    ("{pdu}", ("", "0", "00 00", "00 ", "{longest}00")),
)


def text_of(lines):
    """Lines as a file has them."""
    return "".join(line + "\n" for line in lines)


class Samples:
    """Requests and their answers, line by line, and how many there are of each kind."""

    def __init__(self):
        self.requests = []
        self.answers = []
        self.counts = {}

    def say(self, text):
        """Adds a line that is written out as it is."""
        self.requests.append("# " + text)
        self.answers.append("# " + text)

    def ask(self, request, answer):
        """Adds a request and its answer."""
        self.requests.append(request)
        self.answers.append(answer)
        words = request.split(" ")[0], answer.split(" ")[0]
        kind = words[0] if words[1] not in ("refused", "unread") else words[1]
        self.counts[kind] = self.counts.get(kind, 0) + 1

    def files(self):
        """The two files, by their names."""
        return {"samples/stdin": text_of(self.requests), "samples/stdout": text_of(self.answers)}


def expect(true, what):
    """Stops where the vectors contradict themselves."""
    if not true:
        sys.exit("the vectors contradict themselves: " + what)


def field(octets):
    """Octets as a request has them."""
    return octets or "-"


def flipped(octets, bit):
    """The octets with one bit changed, counted from the first octet's high bit; a negative one from the end."""
    size = 4 * len(octets)
    changed = int(octets, 16) ^ 1 << (size - 1 - bit % size)
    return f"{changed:0{len(octets)}x}"


def shifted(index, step):
    """Another IV Index, so many steps away."""
    return f"{int(index, 16) + step:08x}"


def add_ciphers(samples, ciphers):
    """AES, CMAC and CCM, as FIPS 197, RFC 4493 and RFC 3610 print them."""
    for v in ciphers["aes"]:
        samples.say(f"{v['document']}, {v['section']}: {v['name']}")
        samples.ask(f"aes {v['key']} {v['block']}", v["out"])
    for v in ciphers["cmac"]:
        samples.say(f"{v['document']}, {v['section']}: {v['name']}")
        samples.ask(f"cmac {v['key']} {field(v['message'])}", v["out"])
    for v in ciphers["ccm"]:
        terms = f"{v['key']} {v['nonce']} 8"
        samples.say(f"{v['document']}, {v['section']}: {v['name']}; with one bit changed in the additional data; with none")
        samples.ask(f"sealwith {terms} {v['additional']} {v['message']}", v["out"])
        samples.ask(f"openwith {terms} {v['additional']} {v['out']}", v["message"])
        samples.ask(f"openwith {terms} {flipped(v['additional'], -1)} {v['out']}", "refused")
        samples.ask(f"open {terms} {v['out']}", "refused")
    samples.say("RFC 3610, section 8: packet vectors 7 to 12 and 19 to 24 left out, their MIC has ten octets")


def add_function(samples, v):
    """One derivation of MP 8.1 or 8.2: those by s1, by k2 with flooding credentials, and by k4."""
    title = f"MP {v['section']}: {v['name']}"
    if v["fn"] == "s1":
        samples.say(title)
        samples.ask(f"s1 {v['m_ascii'].encode().hex()}", v["out"])
    elif v["fn"] == "k2" and v["p"] == "00":
        samples.say(title)
        samples.ask(f"k2 {v['n']}", f"{v['nid']} {v['encryption_key']} {v['privacy_key']}")
    elif v["fn"] == "k4":
        samples.say(title)
        samples.ask(f"k4 {v['n']}", v["out"])
    else:
        samples.say(f"{title}: left out, no request derives it")


def add_ccm(samples, title, key, nonce, size, clear, sealed, additional=""):
    """One sealed message both ways, and damaged: each time in one bit, of the cipher text, the MIC, the nonce, the key or the additional data."""
    kind, octets = ("with", additional + " ") if additional else ("", "")
    samples.say(title)
    samples.ask(f"seal{kind} {key} {nonce} {size} {octets}{field(clear)}", sealed)
    samples.ask(f"open{kind} {key} {nonce} {size} {octets}{sealed}", field(clear))
    samples.say(f"{title}: with one bit changed in the cipher text, the MIC (twice), the nonce, the key")
    for changed in (flipped(sealed, 0), flipped(sealed, -8 * size), flipped(sealed, -1)):
        samples.ask(f"open{kind} {key} {nonce} {size} {octets}{changed}", "refused")
    samples.ask(f"open{kind} {key} {flipped(nonce, 23)} {size} {octets}{sealed}", "refused")
    samples.ask(f"open{kind} {flipped(key, 64)} {nonce} {size} {octets}{sealed}", "refused")
    if additional:
        samples.say(f"{title}: with one bit changed in the additional data (twice); with none")
        for changed in (flipped(additional, 0), flipped(additional, -1)):
            samples.ask(f"openwith {key} {nonce} {size} {changed} {sealed}", "refused")
        samples.ask(f"open {key} {nonce} {size} {sealed}", "refused")


def add_network(samples, m, pdu):
    """The network layer of one Network PDU (MP 3.8.5.1, 3.8.7.2): DST and transport PDU under the encryption key."""
    title = f"MP {m['section']}: {m['name']}, SEQ {pdu['seq']}, network layer"
    nonce = f"00{128 * m['ctl'] + m['ttl']:02x}{pdu['seq']}{m['src']}0000{m['iv_index']}"
    expect(nonce == pdu["network_nonce"], f"{title}: the nonce")
    size = 8 if m["ctl"] else 4
    sealed = pdu["encrypted_dst_transport"] + pdu["net_mic"]
    expect(len(pdu["net_mic"]) == 2 * size, f"{title}: the size of the MIC")
    expect(pdu["network_pdu"][14:] == sealed, f"{title}: the Network PDU's end")
    add_ccm(samples, title, m["encryption_key"], nonce, size, m["dst"] + pdu["lower_transport_pdu"], sealed)


def parts_of(m, pdu):
    """What a Network PDU says, from CTL on."""
    return f"{m['ctl']} {m['ttl']:02x} {pdu['seq']} {m['src']} {m['dst']} {pdu['lower_transport_pdu']}"


def add_pdu(samples, m, pdu):
    """One Network PDU sealed, opened at its IV Index and at the next, and refused when it is damaged or at another one."""
    title = f"MP {m['section']}: {m['name']}, SEQ {pdu['seq']}, Network PDU"
    key, iv, whole, parts = m["net_key"], m["iv_index"], pdu["network_pdu"], parts_of(m, pdu)
    expect(int(whole[:2], 16) == int(iv, 16) % 2 * 128 + int(m["nid"], 16), f"{title}: octet 0")
    samples.say(title)
    samples.ask(f"netseal {key} {iv} {parts}", whole)
    samples.ask(f"netopen {key} {iv} {whole}", f"{parts} trials 1 key 0")
    samples.ask(f"netopen {key} {shifted(iv, 1)} {whole}", f"{parts} trials 1 key 0")
    samples.say(f"{title}: with one bit changed in IVI, CTL, SEQ, SRC, DST, the transport, the NetMIC (twice); cut by an octet")
    mic = -4 * len(pdu["net_mic"])
    for bit in (0, 8, 39, 55, 56, mic - 1, mic, -1):
        samples.ask(f"netopen {key} {iv} {flipped(whole, bit)}", "refused 3 trials 1")
    samples.ask(f"netopen {key} {iv} {whole[:-2]}", "refused 3 trials 1")
    samples.say(f"{title}: two IV Indexes later, one earlier")
    for step in (2, -1):
        samples.ask(f"netopen {key} {shifted(iv, step)} {whole}", "refused 3 trials 1")


def add_upper(samples, m):
    """The upper transport layer of an access message (MP 3.8.5.2, 3.8.5.3, 3.8.7.1): the access payload under an application or device key, to a label with its octets."""
    title = f"MP {m['section']}: {m['name']}, upper transport layer"
    nonce = f"{'01' if m['akf'] else '02'}{'80' if m['szmic'] else '00'}{m['app_seq']}{m['src']}{m['dst']}{m['iv_index']}"
    expect(nonce == m["app_or_dev_nonce"], f"{title}: the nonce")
    size = 8 if m["szmic"] else 4
    sealed = m["encrypted_access_payload"] + m["trans_mic"]
    header = 8 if m["seg"] else 2
    parts = "".join(pdu["lower_transport_pdu"][header:] for pdu in m["pdus"])
    expect(len(m["trans_mic"]) == 2 * size, f"{title}: the size of the MIC")
    expect(parts == sealed, f"{title}: what the lower transport PDUs carry")
    add_ccm(samples, title, m["app_key"] if m["akf"] else m["dev_key"], nonce, size, m["access_payload"], sealed, m.get("label_uuid", ""))


def add_message(samples, m):
    """One message of MP 8.3, if its credentials are those of flooding."""
    if m["credentials"] != "flooding":
        samples.say(f"MP {m['section']}: {m['name']}: left out, its credentials are those of a {m['credentials']}")
        return
    for pdu in m["pdus"]:
        add_network(samples, m, pdu)
        add_pdu(samples, m, pdu)
    if "access_payload" in m:
        add_upper(samples, m)


def add_keys(samples, m, pdu, other):
    """Which of several keys opens a Network PDU, and how many are tried; the other key has another NID."""
    title = f"MP {m['section']}: {m['name']}, SEQ {pdu['seq']}, Network PDU"
    key, iv, whole, parts = m["net_key"], m["iv_index"], pdu["network_pdu"], parts_of(m, pdu)
    foreign = other["n"]
    expect(other["nid"] != m["nid"], f"{title}: the other key's NID")
    samples.say(f"{title}: the key twice; behind a key with another NID (MP {other['section']}), alone and twice; behind three such")
    for held, place in ((key + key, 0), (foreign + key, 1), (foreign + key + key, 1), (key + foreign, 0), (foreign * 3 + key, 3)):
        samples.ask(f"netopen {held} {iv} {whole}", f"{parts} trials 1 key {place}")
    samples.say(f"{title}: with one bit changed in the NetMIC; the key twice, four times, behind a key with another NID, before and behind one")
    for held, trials in ((key * 2, 2), (key * 4, 4), (foreign + key, 1), (key + foreign + key * 2, 3)):
        samples.ask(f"netopen {held} {iv} {flipped(whole, -1)}", f"refused 3 trials {trials}")
    samples.say(f"{title}: with the NID changed; under keys with another NID")
    for held, changed in ((key, flipped(whole, 7)), (key * 4, flipped(whole, 1)), (foreign, whole), (foreign * 4, whole)):
        samples.ask(f"netopen {held} {iv} {changed}", "refused 2 trials 0")


def add_limits(samples, messages):
    """Refusals of Network PDUs that follow from their definition alone: by length, by IV Index 0, and those of sealing."""
    long, odd, control = messages["8.3.6"], messages["8.3.22"], messages["8.3.1"]
    key, iv, whole = long["net_key"], long["iv_index"], long["pdus"][0]["network_pdu"]
    expect(len(whole) == 58, "a Network PDU that is to have 29 octets")
    samples.say("netopen: 0, 1, 13, 30 and 64 octets")
    for pdu in ("-", whole[:2], whole[:26], whole + "00", whole + "00" * 35):
        samples.ask(f"netopen {key} {iv} {pdu}", "refused 1 trials 0")
    samples.say("netopen: an access message's first 14 octets; a control message's first 14, 17 and 18")
    samples.ask(f"netopen {key} {iv} {whole[:28]}", "refused 3 trials 1")
    for size in (14, 17, 18):
        samples.ask(f"netopen {control['net_key'] * 2} {control['iv_index']} {control['pdus'][0]['network_pdu'][:2 * size]}", "refused 3 trials 2")
    samples.say("netopen: at IV Index 0, IVI 1 and then IVI 0")
    samples.ask(f"netopen {odd['net_key']} 00000000 {odd['pdus'][0]['network_pdu']}", "refused 2 trials 0")
    samples.ask(f"netopen {key} 00000000 {whole}", "refused 3 trials 1")
    samples.say("netopen: refusal 4 left out, no document prints a Network PDU whose addresses are not allowed")
    for reason, parts in REFUSED:
        samples.say(f"netseal: {reason}")
        for each in parts:
            samples.ask(f"netseal {key} {iv} {each}", "refused 14")


def add_fields(samples, request, forms, fields):
    """A request with each of its fields in turn not of its form."""
    samples.say(f"unread: {request}, each field in turn not of its form, and a field too few")
    good = [form for form, _ in forms]
    for place, (_, texts) in enumerate(forms):
        for text in texts:
            line = " ".join([request] + good[:place] + [text] + good[place + 1:])
            samples.ask(line.format(**fields), "unread")
        samples.ask(" ".join([request] + good[:place]).format(**fields), "unread")


def add_forms(samples, ciphers):
    """How lines are read: in either case of the digits, and what is no request."""
    v = ciphers["aes"][1]
    fields = {"key": v["key"], "block": v["block"], "nonce": "00" * 13, "most": "00" * 384, "whole": "00" * 392}
    fields |= {"iv": "12345678", "transport": "00" * 16, "pdu": "00" * 14, "longest": "00" * 64}
    samples.say(f"{v['document']}, {v['section']}: {v['name']}, in upper case")
    samples.ask(f"aes {v['key'].upper()} {v['block'].upper()}", v["out"])
    samples.say("open: fewer octets than the MIC has")
    for line in ("open {key} {nonce} 4 -", "open {key} {nonce} 4 000000", "open {key} {nonce} 8 00000000000000"):
        samples.ask(line.format(**fields), "refused")
    for reason, lines in UNREAD:
        samples.say(f"unread: {reason}")
        for line in lines:
            samples.ask(line.format(**fields), "unread")
    add_fields(samples, "netseal", NETSEAL, fields)
    add_fields(samples, "netopen", NETOPEN, fields)


def all_samples():
    """Everything, in the order of the documents."""
    ciphers = json.loads((HERE / "ciphers.json").read_text())
    mp = json.loads((HERE / "mp_samples.json").read_text())
    samples = Samples()
    add_ciphers(samples, ciphers)
    for v in mp["functions"]:
        add_function(samples, v)
    for m in mp["messages"]:
        add_message(samples, m)
    messages = {m["section"]: m for m in mp["messages"]}
    others = [v for v in mp["functions"] if v["fn"] == "k2" and v["p"] == "00" and v["n"] != messages["8.3.6"]["net_key"]]
    add_keys(samples, messages["8.3.6"], messages["8.3.6"]["pdus"][0], others[0])
    add_limits(samples, messages)
    add_forms(samples, ciphers)
    return samples


def first_difference(name, made):
    """Where the file in the tree differs from what is made now, or nothing."""
    path = CRATES / name
    if not path.exists():
        return f"{name}: there is no such file"
    old, new = path.read_bytes().split(b"\n"), made.encode().split(b"\n")
    for number, (found, line) in enumerate(zip_longest(old, new), 1):
        if found != line:
            return f"{name}, line {number}: {found} is in the tree, and {line} is made"
    return None


def main(words):
    """Writes the files, or compares them, and says how many requests of each kind there are."""
    if words not in ([], ["--check"]):
        sys.exit(__doc__)
    samples = all_samples()
    files = samples.files()
    expect(len(files["samples/stdin"].encode()) <= MOST, f"more than {MOST} octets of requests")
    messages = spoken(json.loads((HERE / "mp_samples.json").read_text())["messages"])
    files["spoken/stdout"] = text_of(messages)
    for name, made in files.items():
        if words:
            difference = first_difference(name, made)
            if difference:
                sys.exit(difference)
        else:
            (CRATES / name).write_bytes(made.encode())
    pdus = sum(line.startswith("SEQ ") for line in messages)
    print(", ".join(f"{count} {kind}" for kind, count in samples.counts.items()) + f", {pdus} sent")


if __name__ == "__main__":
    main(sys.argv[1:])
