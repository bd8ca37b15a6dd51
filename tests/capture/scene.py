"""What is on the air for the captures: advertisements of the story's boxes and of others, and what the station has of them."""
import sys
from dataclasses import dataclass
from pathlib import Path

ROOT = Path(__file__).resolve().parents[2]
sys.path[:0] = [str(ROOT / "tests" / "independent"), str(ROOT / "tests" / "story")]

import files  # noqa: E402
import packets  # noqa: E402
from boxes import APPLICATION_KEY, IV_INDEX, NETWORK_KEY, STATION, from_line  # noqa: E402
from packets import ADV_IND, ADV_NONCONN_IND, BEACON, COMMAND, EVENT, MESSAGE, PROVISIONING, structure  # noqa: E402

KEYS = (
    "# The station of the story.", f"netkey {NETWORK_KEY.hex()}", f"appkey 0 {APPLICATION_KEY.hex()}", f"elements {STATION:x} 40",
    f"ivindex {IV_INDEX:x} 0", "property 76 humidity", "setup", "# box 0201: humidity box")
# The first packet comes at 2026-11-17 06:00:00.250000 UTC, and each of the others 12.345 milliseconds behind the one before.
BEGIN, BEGAN, STEP = 1794895200250000, "2026-11-17 06:00:00.250000 UTC", 12345
HUMIDITY, WIND, OTHER = (bytes.fromhex(address) for address in ("c00000000201", "c00000000101", "d10203040506"))
FLAGS = structure(0x01, b"\x06")


@dataclass
class Advert:
    """One advertisement, what of it is heard, and words of the comment where something else is said of it; `sent`: by the host."""
    address: bytes
    data: bytes
    heard: tuple = ()
    said: str = ""
    kind: int = ADV_NONCONN_IND
    good: bool = True
    sent: bool = False
    channel: int = 37
    rssi: int = -60


def scene():
    """The advertisements, each on the next channel and one dB fainter than the one before; and the message that is handed up at the end."""
    shed = {}
    for line in ('box humidity 0201 "humidity box" start 000a10 long 0076 humidity 48.00 48.20 48.55 48.90 49.10', 'box wind 0101 "wind box" start 000100'):
        name, box = from_line(line, shed)
        shed[name] = box
    parts, short, gust = [shed["humidity"].segment(place) for place in range(3)], shed["wind"].status(5, STATION), shed["wind"].status(5, STATION)
    resent = shed["humidity"].segment(1, "resent")
    beacon, link, odd = bytes.fromhex("0100" + 20 * "5a"), bytes.fromhex("0102030400") + bytes(9), b"\x01\x02"
    found = [
        Advert(HUMIDITY, structure(MESSAGE, parts[0]), (parts[0],)),
        Advert(HUMIDITY, structure(MESSAGE, parts[0]), (parts[0],)),
        Advert(OTHER, structure(BEACON, beacon), said=f"a mesh beacon: {beacon.hex()}"),
        Advert(WIND, FLAGS + structure(MESSAGE, short) + structure(MESSAGE, odd), (short, odd)),
        Advert(OTHER, structure(PROVISIONING, link), said=f"PB-ADV: {link.hex()}"),
        Advert(OTHER, FLAGS),
        Advert(OTHER, b""),
        Advert(HUMIDITY, structure(MESSAGE, parts[1]), good=False, said="a wrong CRC: not heard"),
        Advert(HUMIDITY, structure(MESSAGE, parts[2]) + bytes(3), (parts[2],)),
        Advert(WIND, structure(MESSAGE, gust), (gust,), kind=ADV_IND),
        Advert(HUMIDITY, structure(MESSAGE, parts[1])[:-1], said=f"damaged from here on, and not heard: {structure(MESSAGE, parts[1])[:-1].hex()}"),
        Advert(OTHER, structure(MESSAGE, b"") + b"\0" + structure(MESSAGE, odd), (b"",), said="damaged from here on, and not heard: 00032a0102"),
        Advert(OTHER, structure(MESSAGE, short), said=f"sent by this host, a mesh message: {short.hex()}", sent=True),
        Advert(HUMIDITY, structure(MESSAGE, resent), (resent,))]
    for at, each in enumerate(found):
        each.channel, each.rssi = 37 + at % 3, -60 - at
    return found, bytes.fromhex("52c20ec012c20ed412c20ef712c20e1a13c20e2e13")


def _timed(each):
    """Each packet with its time."""
    return [(BEGIN + STEP * at, *packet) for at, packet in enumerate(each)]


def _on_air(adverts, wrapped=lambda packet, each: packet):
    """The packets of a sniffer, in its envelope."""
    return _timed([(wrapped(packets.on_air(each.address, each.data, each.kind, each.good), each),) for each in adverts])


def _radio(packet, each):
    """The envelope of link type 256."""
    return packets.with_radio(packet, each.channel, each.rssi, each.good)


def _nordic(packet, each):
    """The envelope of the nRF sniffer."""
    return packets.with_nordic(packet, each.channel, each.rssi, each.good)


def _host(adverts, extended):
    """The packets of a host's log: a command for what the host sends, an event for what it hears."""
    found = []
    for each in adverts:
        if each.sent:
            found.append((COMMAND, packets.set_extended_data(each.data) if extended else packets.set_data(each.data)))
        elif extended:
            found.append((EVENT, packets.extended_report(each.address, each.data, each.rssi, connectable=each.kind == ADV_IND)))
        else:
            found.append((EVENT, packets.report(each.address, each.data, each.rssi, kind=0 if each.kind == ADV_IND else 3)))
    return _timed(found)


def captures():
    """Each format's name, its file, the advertisements that are in it, and whether the file has channels and RSSI."""
    adverts, _ = scene()
    air, host = [each for each in adverts if not each.sent], [each for each in adverts if each.good]
    for name, made in (("pcap", files.pcap), ("pcapng", files.pcapng)):
        yield f"251.{name}", made(files.LINK_LAYER, _on_air(air)), air, False, False
        yield f"256.{name}", made(files.LINK_LAYER_RADIO, _on_air(air, _radio)), air, True, True
        yield f"272.{name}", made(files.NORDIC, _on_air(air, _nordic)), air, True, True
    for extended, word in ((False, "reports"), (True, "extended")):
        log = _host(host, extended)
        yield f"h4-{word}.btsnoop", files.btsnoop(files.H4, log), host, False, True
        yield f"monitor-{word}.btsnoop", files.btsnoop(files.MONITOR, log), host, False, True
        yield f"201-{word}.pcap", files.host(log), host, False, True
