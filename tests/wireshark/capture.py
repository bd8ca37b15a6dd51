"""Network PDUs as a capture file that tshark reads, and what tshark says of each."""
import struct
import subprocess
import tempfile
import xml.etree.ElementTree as xml
from collections import namedtuple
from pathlib import Path

# Bluetooth Low Energy link layer; its packets carry a PDU as one advertising element of type 0x2A, Mesh Message.
LINK_TYPE, ACCESS_ADDRESS, ADV_NONCONN_IND, MESH_MESSAGE = 251, 0x8E89BED6, 0x02, 0x2A
ADVERTISER = bytes(6)
CRC = bytes(3)
FIELDS = tuple("btmesh." + name for name in (
    "ctl", "ttl", "seq", "src", "dst", "szmic", "seqzero_data", "sego", "segn", "acc.akf", "access.decrypted", "cntr.opcode", "cntr.unknownpayload", "obo",
    "seqzero", "blockack"))
OCTETS = ("btmesh.access.decrypted", "btmesh.cntr.unknownpayload")
OPCODE, PROPERTY, SENSOR_STATUS = "btmesh.model.opcode", "btmesh.property.", "btmesh.model.sensor_status."

# A record of Sensor Status as tshark reads it: the format, the length's bits as they stand, the property, the value's octets, and the words for
# the value; None for what it does not get to, or has no words for.
Record = namedtuple("Record", "format length property value words", defaults=(None,) * 5)


class Failed(Exception):
    """tshark did not do its work."""


def _packet(pdu):
    body = ADVERTISER + bytes([len(pdu) + 1, MESH_MESSAGE]) + pdu
    return struct.pack("<I", ACCESS_ADDRESS) + bytes([ADV_NONCONN_IND, len(body)]) + body + CRC


def _file(pdus):
    """A capture in the classic format, a packet each second."""
    text = struct.pack("<IHHiIII", 0xA1B2C3D4, 2, 4, 0, 0, 65535, LINK_TYPE)
    for at, pdu in enumerate(pdus):
        packet = _packet(pdu)
        text += struct.pack("<IIII", at, 0, len(packet), len(packet)) + packet
    return text


def _value(field, text):
    """A field as a number, or as hex digits where it is octets."""
    if not text:
        return None
    return text.replace(":", "") if field in OCTETS else int(text, 0)


def _tshark(pdus, networks, devices, labels, wanted):
    """What tshark writes of the PDUs with these options, in two passes: the first puts segments together."""
    with tempfile.TemporaryDirectory() as folder:
        file = Path(folder) / "mesh.pcap"
        file.write_bytes(_file(pdus))
        words = ["tshark", "-2", "-r", str(file), *wanted]
        for net, app, index in networks:
            words += ["-o", f'uat:btmesh_nw_keys:"0x{net.hex()}","0x{app.hex()}","0x{index:08x}"']
        for key, src in devices:
            words += ["-o", f'uat:btmesh_dev_keys:"0x{key.hex()}","0x{src:04x}"']
        for label in labels:
            words += ["-o", f'uat:btmesh_label_uuids:"0x{label.hex()}"']
        run = subprocess.run(words, capture_output=True, text=True, check=False)
    if run.returncode:
        raise Failed(f"tshark ended with status {run.returncode}: {run.stderr.strip()}")
    return run.stdout


def dissected(pdus, networks, devices, labels):
    """What tshark says of each PDU, as a dictionary of its fields.

    networks are (network key, application key, IV Index), devices (device key, source address).
    """
    wanted = ["-T", "fields", "-E", "separator=|", "-E", "occurrence=f"]
    for field in FIELDS:
        wanted += ["-e", field]
    lines = _tshark(pdus, networks, devices, labels, wanted).splitlines()
    if len(lines) != len(pdus):
        raise Failed(f"tshark wrote {len(lines)} lines for {len(pdus)} packets")
    return [{field: _value(field, word) for field, word in zip(FIELDS, line.split("|"))} for line in lines]


def _records(packet):
    """The records of one packet, in their order."""
    records = []
    for field in packet.iter("field"):
        name, show = field.get("name"), field.get("show")
        if name.startswith(PROPERTY):
            records[-1] = records[-1]._replace(words=field.get("showname").partition(": ")[2])
        match name.removeprefix(SENSOR_STATUS).split("."):
            case ["mpid", "format"]:
                records.append(Record("AB"[int(show)]))
            case ["mpid", _, "length"]:
                records[-1] = records[-1]._replace(length=int(show))
            case ["mpid", _, "property_id"]:
                records[-1] = records[-1]._replace(property=int(show))
            case ["raw_value"]:
                records[-1] = records[-1]._replace(value=bytes.fromhex(field.get("value") or ""))
    return records


def statuses(pdus, networks):
    """What tshark says of each Sensor Status that the PDUs carry: the records, and whether it calls the packet malformed."""
    for packet in xml.fromstring(_tshark(pdus, networks, (), (), ["-T", "pdml"])).iter("packet"):
        if any(field.get("name") == OPCODE and int(field.get("show"), 0) == 0x52 for field in packet.iter("field")):
            yield _records(packet), any(part.get("name") == "_ws.malformed" for part in packet.iter("proto"))
