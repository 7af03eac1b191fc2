#!/usr/bin/env python3
"""The files of a dataset that its table doesn't list: what a killed process, a flush that failed or a stopped purge left. Nothing may run on
the dataset meanwhile. Files that a slot behind a closed gate names are never among them: one changed bit closes a gate, and then these were
acknowledged, and may be the only ones of their fields. They are told on standard error, each by a line of its own.

orphans.py STORE/DATASET           prints their names, one a line
orphans.py --remove STORE/DATASET  removes them too
"""
import os
import re
import sys

NAME = re.compile(r"([1-9][0-9]*)-([1-9][0-9]*)\.(fields|index)")


def listed(table):
    """The writers and numbers of the batches that a table lists: its slots of 64 octets from octet 320 on, up to the first whose
    gate isn't open. A table that isn't in its format is an error, so that no file is taken for an orphan by mistake."""
    if table[:8] != b"FDTOC001" or len(table) < 321:
        raise SystemExit("toc is no table")
    batches = set()
    for at in range(320, len(table), 64):
        if table[at] != 0x4F:
            return batches
        if len(table) < at + 65 or table[at + 1] not in (1, 2):
            raise SystemExit("toc is no table")
        batches.add((int.from_bytes(table[at + 2:at + 6], "big"), int.from_bytes(table[at + 6:at + 10], "big")))
    raise SystemExit("toc is no table")


def behind(table):
    """The batches that slots from the first closed gate on name, whatever their gates are."""
    batches, is_open = set(), True
    for at in range(320, len(table) - 9, 64):
        is_open = is_open and table[at] == 0x4F
        if not is_open and table[at + 1] in (1, 2):
            batches.add((int.from_bytes(table[at + 2:at + 6], "big"), int.from_bytes(table[at + 6:at + 10], "big")))
    return batches


def main(words):
    remove = words[:1] == ["--remove"]
    if len(words) != 1 + remove:
        raise SystemExit(__doc__)
    folder = words[-1]
    path = os.path.join(folder, "toc")
    table = open(path, "rb").read() if os.path.exists(path) else None
    batches, closed = (listed(table), behind(table)) if table is not None else (set(), set())
    for name in sorted(os.listdir(folder)):
        match = NAME.fullmatch(name)
        batch = (int(match[1]), int(match[2])) if match else None
        if batch in closed and batch not in batches:
            print(f"{name} is left: a slot of the table names it behind a closed gate", file=sys.stderr)
        elif match and batch not in batches:
            print(name)
            if remove:
                os.remove(os.path.join(folder, name))


if __name__ == "__main__":
    main(sys.argv[1:])
