#!/usr/bin/env python3
"""GRIB 2 messages for measuring, in the order of a forecast's levels, steps, parameters and days.

messages.py N [FIRST]           N messages of 183 octets, from number FIRST on (0), as `fdb generate` makes them
messages.py N [FIRST] OCTETS    the same, each with so many packed octets in place of four
messages.py --request N         the request that asks for the first N messages, or up to 649 more, in their order
"""
import datetime
import sys

LEVELS = [100000, 92500, 85000, 70000, 60000, 50000, 40000, 30000, 25000, 20000, 15000, 10000, 5000]
PARAMETERS = [(0, 0), (1, 1), (2, 2), (2, 3), (3, 5)]
HEAD = bytes.fromhex("47524942ffff0002")


def section(number, body):
    return (5 + len(body)).to_bytes(4, "big") + bytes([number]) + body


def message(i, octets=4):
    level, step = LEVELS[i % 13], i // 13 % 10
    category, parameter = PARAMETERS[i // 130 % 5]
    day = datetime.date(2024, 1, 1) + datetime.timedelta(days=i // 650)
    columns = 2 if octets == 4 else octets // 2
    date = day.year.to_bytes(2, "big") + bytes([day.month, day.day])
    ident = section(1, bytes.fromhex("006200000200" + "01") + date + bytes.fromhex("0000000001"))
    grid = section(3, bytes([0]) + octets.to_bytes(4, "big") + bytes.fromhex("0000000006" + "ff" * 15)
                   + columns.to_bytes(4, "big") + (2).to_bytes(4, "big") + bytes.fromhex("00000000ffffffff")
                   + bytes.fromhex("0098968000000000300000000000989680009896800098968000"))
    product = section(4, bytes.fromhex("00000000") + bytes([category, parameter]) + bytes.fromhex("02000000000001")
                      + (6 * step).to_bytes(4, "big") + bytes.fromhex("6400") + level.to_bytes(4, "big")
                      + bytes.fromhex("ffffffffffff"))
    packing = section(5, octets.to_bytes(4, "big") + bytes.fromhex("000043fa0000800100010800"))
    values = section(7, bytes((7 * i + 13 * j + 3) % 256 for j in range(octets)))
    body = ident + grid + product + packing + section(6, b"\xff") + values + b"7777"
    return HEAD + (16 + len(body)).to_bytes(8, "big") + body


def request(count):
    last = datetime.date(2024, 1, 1) + datetime.timedelta(days=(count - 1) // 650)
    params = "/".join(f"0.{c}.{p}" for c, p in PARAMETERS)
    levels = "/".join(map(str, LEVELS))
    return (f"retrieve, class=od, expver=0001, date=20240101/to/{last:%Y%m%d}, time=00, centre=98, type=1, levtype=100,\n"
            f"  param={params}, step=0/to/54/by/6, levelist={levels}\n")


if __name__ == "__main__":
    words = sys.argv[1:]
    if words and words[0] == "--request":
        sys.stdout.write(request(int(words[1])))
    elif words:
        numbers = [int(word) for word in words] + [0, 4][len(words) - 1:]
        count, first, octets = numbers[0], numbers[1] if len(words) > 1 else 0, numbers[2] if len(words) > 2 else 4
        for i in range(first, first + count):
            sys.stdout.buffer.write(message(i, octets))
    else:
        sys.exit(__doc__)
