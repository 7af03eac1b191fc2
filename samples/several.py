#!/usr/bin/env python3
"""Makes several.grib2 of forecast.grib2, octet by octet: four messages of several fields (FM 92, sections 2 to 7, 3 to 7 or 4 to
7 repeated), between them one of a single field and some octets that are no message."""
import os

here = os.path.dirname(os.path.abspath(__file__))
octets = open(f"{here}/forecast.grib2", "rb").read()


def messages(octets):
    """Each message as its section 0 and its sections 1 to 7 by their numbers."""
    at = 0
    while at < len(octets):
        end = at + int.from_bytes(octets[at + 8 : at + 16], "big")
        sections, place = {0: octets[at : at + 16]}, at + 16
        while octets[place : place + 4] != b"7777":
            size = int.from_bytes(octets[place : place + 4], "big")
            sections[octets[place + 4]] = octets[place : place + size]
            place += size
        yield sections
        at = end


def section(number, body):
    return (len(body) + 5).to_bytes(4, "big") + bytes([number]) + body


def joined(fields, first_repeated):
    """One message of these fields, whose rounds behind the first begin with this section."""
    first = fields[0]
    rounds = b"".join(first.get(n, b"") for n in range(2, 8))
    for field in fields[1:]:
        rounds += b"".join(field.get(n, b"") for n in range(first_repeated, 8))
    size = 16 + len(first[1]) + len(rounds) + 4
    return first[0][:8] + size.to_bytes(8, "big") + first[1] + rounds + b"7777"


def with_local_use(field, text):
    return field | {2: section(2, text)}


def with_map(field, points):
    """The field with a bit map that has its first points alone, an even number of them, of 12 bits each."""
    bits = [1] * points + [0] * (496 - points)
    packed = bytes(int("".join(map(str, bits[i : i + 8])), 2) for i in range(0, 496, 8))
    representation = field[5][:5] + points.to_bytes(4, "big") + field[5][9:]
    return field | {5: representation, 6: section(6, b"\0" + packed), 7: section(7, field[7][5 : 5 + points * 12 // 8])}


fields = list(messages(octets))
steps = [fields[i : i + 6] for i in range(0, 18, 6)]
mapped = with_map(steps[1][0], 400)
same_map = with_map(steps[1][1], 400) | {6: section(6, b"\xfe")}
plain = steps[1][2]
# ECMWF's local definition 1: class, type, stream, experiment, number and total.
own_use = [with_local_use(field, b"\0\1\0\1\0\x09\x04\x01" + b"%04d" % i) for i, field in enumerate(steps[2][:3], 1)]
with open(f"{here}/several.grib2", "wb") as out:
    # Sections 4 to 7 again, for each field of step 0.
    out.write(joined(steps[0], 4))
    out.write(b"between")
    # The bit map of the first field is that of the second; the third has none.
    out.write(joined([mapped, same_map, plain], 4))
    out.write(joined(steps[1][3:4], 4))
    # Sections 2 to 7 again, each field with its own section for local use; and then sections 3 to 7.
    out.write(joined(own_use, 2))
    out.write(joined(steps[2][3:], 3))
