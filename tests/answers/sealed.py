"""What the examples hear: PDUs sealed by the independent model, right ones and wrong ones; and the station that hears them."""
import network
import transport
from boxes import APPLICATION_KEY, IV_INDEX, NETWORK_KEY, STATION
from ciphers import k2, k4, label_address

# MP's sample data: the device key of 8.3, as the story has it, the network key of 8.1.3, and of 8.1.6 an application key that the station does not hold.
DEVICE_KEY, SECOND_KEY, OTHER_KEY = (bytes.fromhex(key) for key in (
    "9d6dd0e96eb25dc19a40ed9914f8f03f", "f7a2a44f8e8a8029064f173ddc1e2b00", "3216d1509884b533248541792b877f98"))
BOX, GROUP = 0x0201, 0xC0A1
# The label of MP 8.3.22, which the station holds, and that of 8.3.23, which it does not; and their addresses.
LABEL, OTHER_LABEL = (bytes.fromhex(label) for label in ("0073e7e4d8b9440faf8415df4c56c0e1", "f4a002c7fb1e4ca0a469a021de0db875"))
LABELLED, ELSEWHERE = label_address(LABEL), label_address(OTHER_LABEL)

SETUP = (
    f"netkey {NETWORK_KEY.hex()}", f"netkey {SECOND_KEY.hex()}", f"appkey 0 {APPLICATION_KEY.hex()}", f"devkey {DEVICE_KEY.hex()}", "elements 1 40",
    f"group {GROUP:x}", f"label {LABEL.hex()}", f"ivindex {IV_INDEX:x} 0", "setup")

# A Sensor Status of one humidity, 48.00 percent; and one of five, 21 octets, which needs three segments.
READING = bytes.fromhex("52c20ec012")
READINGS = bytes.fromhex("52c20ec012c20ed412c20ef712c20e1a13c20e2e13")


def hear(seq, octets, src=BOX, dst=STATION, ctl=0, ttl=5, index=IV_INDEX, key=NETWORK_KEY):
    """The line for one PDU with these transport octets."""
    return "hear " + network.seal(k2(key), index, ctl, ttl, seq, src, dst, octets).hex()


def secured(seq, payload, src=BOX, dst=STATION, index=IV_INDEX, key=APPLICATION_KEY, label=b""):
    """An access payload, encrypted, with its TransMIC of 4 octets; to a label that is additional data."""
    return transport.secure(key, False, 4, seq, src, dst, index, payload, label)


def akf_aid(key=APPLICATION_KEY):
    """Octet 0 of an access message under an application key, not in segments."""
    return 0x40 | k4(key)


def whole(seq, payload=READING, src=BOX, dst=STATION, app=APPLICATION_KEY, index=IV_INDEX, label=b"", **how):
    """The line for an access message that is whole in one PDU."""
    return hear(seq, bytes([akf_aid(app)]) + secured(seq, payload, src, dst, index, app, label), src, dst, index=index, **how)


def parts(start, src=BOX, dst=STATION, label=b""):
    """The transport PDUs of the five readings, begun with the SEQ `start`: three segments."""
    return transport.cut(0, akf_aid(), 0, start, secured(start, READINGS, src, dst, label=label))


def segment(place, start, seq=None, src=BOX, dst=STATION, label=b"", **how):
    """The line for a segment of the five readings, begun with the SEQ `start`; segment N is first sent with `start` + N."""
    return hear(start + place if seq is None else seq, parts(start, src, dst, label)[place], src, dst, **how)


def vet(*pdus, ctl=0):
    """The line that vets these transport PDUs."""
    return " ".join([f"vet {ctl}", *(pdu.hex() or "-" for pdu in pdus)])


def acknowledgement(seq, start, bits):
    """The line for the box's acknowledgement of a message of the station that was begun with `start`."""
    return hear(seq, transport.acknowledgement(0, start % transport.WINDOW, bits), ctl=1)


def changed(line):
    """The line with one bit of its last octet changed."""
    return line[:-1] + f"{int(line[-1], 16) ^ 1:x}"
