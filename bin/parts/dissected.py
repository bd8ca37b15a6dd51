"""A capture file as tshark reads it: the fields of each packet, and whether the file ends in order."""
import os
import subprocess
import tempfile

FIELDS = (
    "frame.number", "frame.time_epoch", "frame.len", "frame.cap_len", "frame.protocols", "data.data", "_ws.malformed",
    "btle.advertising_header.pdu_type", "btle.advertising_header.length", "btle.advertising_address", "btle.crc.incorrect",
    "btle.extended_advertising_header.length", "btle.extended_advertising_header.mode", "btle.extended_advertising_header.flags.aux_pointer",
    "btle_rf.channel", "btle_rf.flags.channel_aliased", "btle_rf.signal_dbm", "nordic_ble.channel", "nordic_ble.rssi",
    "bthci_evt.le_meta_subevent", "bthci_evt.le_advts_event_type", "bthci_evt.le_ext_advts_event_type", "bthci_evt.bd_addr", "bthci_evt.advertising_sid",
    "bthci_evt.rssi", "bthci_evt.data_length", "bthci_cmd.opcode", "bthci_cmd.adv_data_operation", "bthci_cmd.le_data_length")
# tshark's own reading of AD structures cuts a damaged one off without a word, or stops at it. Without that part it gives the advertising data as they are.
WITHOUT = "btcommon"
# Nobody's settings change what is read, and words are English.
SETTINGS = {"WIRESHARK_CONFIG_DIR": "/nonexistent", "LC_ALL": "C"}
CALLED = "tshark: "


class Packet(dict):
    """The fields of a packet: each name has all values that it has there, in order."""

    def first(self, name):
        """The first value of a field; no text where there is none."""
        return (self[name] or [""])[0]

    def number(self, name):
        """The first value as a number; None where there is none."""
        return int(self.first(name), 0) if self[name] else None

    def numbers(self, name):
        """All values as numbers."""
        return [int(value, 0) for value in self[name]]


class Capture:
    """A file's packets, one by one. Behind the last one, `count` says how many there were, and `fault` has tshark's words where it met an error."""

    def __init__(self, path):
        self.path, self.count, self.fault = path, 0, ""

    def __iter__(self):
        path = os.path.abspath(self.path)
        words = ["tshark", "-n", "-r", path, "--disable-protocol", WITHOUT, "-T", "fields", "-E", "separator=/t", "-E", "aggregator=,"]
        for field in FIELDS:
            words += ["-e", field]
        with tempfile.TemporaryFile() as said:
            with subprocess.Popen(words, stdin=subprocess.DEVNULL, stdout=subprocess.PIPE, stderr=said, env=os.environ | SETTINGS) as run:
                for line in run.stdout:
                    if line.strip():
                        self.count += 1
                        values = line.decode("ascii", "replace").rstrip("\n").split("\t")
                        yield Packet((field, value.split(",") if value else []) for field, value in zip(FIELDS, values, strict=True))
            if run.returncode:
                said.seek(0)
                self.fault = _fault(said.read().decode("utf-8", "replace"), path) or f"tshark ended with status {run.returncode}"

    @property
    def is_cut(self):
        """Whether the file ends in the middle of a packet."""
        return "cut short" in self.fault


def _fault(text, path):
    """What tshark says of the file from its first error on, in one line that can be shown."""
    found = text[text.find(CALLED) + len(CALLED):] if CALLED in text else ""
    return " ".join("".join(letter if letter.isprintable() else " " for letter in found.replace(f'The file "{path}"', "it")).split())
