"""What the program `spoken` is to write, from mp_samples.json: MP's messages as one of our nodes sends them, or hears them.

make_samples.py writes it to crates/spoken/stdout. The PDUs are those that MP prints. The words beside them follow from their fields: which
segments came, what an acknowledgement marks, and refusal 14 for a virtual DST that is given as a number (document 02, W8).
"""


def title_of(m):
    return f"# MP {m['section']}: {m['name']}"


def sent_of(m):
    """The Network PDUs of a message, each with its SEQ."""
    return [f"SEQ {pdu['seq']}: {pdu['network_pdu']}" for pdu in m["pdus"]]


def block_ack(m):
    """The BlockAck of an acknowledgement: the last four octets of its transport PDU."""
    return int(m["pdus"][0]["lower_transport_pdu"][-8:], 16)


def segment(pdu):
    """SegO and SegN of a segment: the last ten bits of its transport PDU's first four octets."""
    front = int(pdu["lower_transport_pdu"][:8], 16)
    return front >> 5 & 31, front & 31


def by_itself(m):
    """The transport PDU of an acknowledgement with OBO 0, as the destination itself sends it; MP prints it with OBO 1."""
    octets = m["pdus"][0]["lower_transport_pdu"]
    return f"{int(octets, 16) & ~(1 << 4 * len(octets) - 9):0{len(octets)}x}"


def heard_by_sender(messages):
    """The acknowledgements among some messages, by section, with what each marks of the segmented message before them."""
    lines, before, all_bits = {}, 0, 0
    for m in messages:
        if m["seg"]:
            all_bits = 2 ** (segment(m["pdus"][0])[1] + 1) - 1
        if m.get("opcode") == "00":
            bits, now = block_ack(m), before | block_ack(m) & all_bits
            effect = "all segments are heard" if now == all_bits else "segments are marked as heard" if now != before else "nothing is marked"
            lines[m["section"]] = [f"{title_of(m)}, heard: OBO {m['obo']}", f"{effect}: acknowledgement, places filled {bits:08x}"]
            before = now
    return lines


def acknowledged(whole, again, acknowledgements):
    """The destination hears the last segment of a message, then its first one, sent again, and acknowledges each time."""
    last = whole["pdus"][-1]
    lines = [f"{title_of(whole)}, segment {segment(last)[0]}, heard", f"segment stored, places filled {1 << segment(last)[0]:08x}"]
    lines += [f"{title_of(acknowledgements[0])}, with OBO 0: the transport PDU", by_itself(acknowledgements[0])]
    lines += [f"{title_of(again)}, heard", f"access message from {whole['src']}:", whole["access_payload"]]
    return lines + [f"{title_of(acknowledgements[1])}, with OBO 0: the transport PDU", by_itself(acknowledgements[1])]


def spoken(messages):
    """All lines that the program writes."""
    ours = [m for m in messages if m["credentials"] == "flooding" and "label_uuid" not in m]
    heard = heard_by_sender(ours)
    exchange = []
    for m in ours:
        exchange += heard.get(m["section"]) or [title_of(m)] + sent_of(m)
    index = ours[0]["iv_index"]
    lines = [f"# IV Index {index}"] + exchange
    lines += [f"# IV Index {int(index, 16) + 1:08x}, in an update"] + exchange
    for m in messages:
        if "label_uuid" in m:
            lines += [f"{title_of(m)}, to a label"] + sent_of(m)
            lines += [f"{title_of(m)}, to the label's address, which sending refuses", "refused 14"]
    segmented = [m for m in ours if m["seg"]]
    lines += acknowledged(segmented[0], segmented[1], [m for m in ours if m["section"] in heard])
    foreign = [m["name"].split()[1] for m in messages if m["credentials"] == "friendship"]
    return lines + [f"# left out: Message {', '.join(foreign)}, whose credentials are those of a friendship"]
