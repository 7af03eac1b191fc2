"""What was sent to a store, how much of it was acknowledged, and what a retrieve finds of it.

A field's key is a number, that of its message in `messages.py`: 650 of them make a dataset, 130 a parameter. Each field that is
sent has four packed octets of its own, so that what is found tells which of those of its key it is.
"""
import re
import subprocess

from messages import LEVELS, PARAMETERS, message

SCHEMA = b"[class, expver, date, time [centre, type, levtype [param, step, levelist?]]]\n"
WITH = ["--with", "class=od,expver=0001"]


def dataset_of(day):
    return f"class=od,expver=0001,date=202401{day + 1:02},time=0000"


def text_of(key):
    category, parameter = PARAMETERS[key // 130 % 5]
    return (f"{dataset_of(key // 650)},centre=98,type=1,levtype=100,param=0.{category}.{parameter},step={6 * (key // 13 % 10)},"
            f"levelist={LEVELS[key % 13]}")


class Scope:
    """The keys of so many days and parameters, and the request for them."""

    def __init__(self, days, parameters=1, first=0):
        self.keys = [650 * day + i for day in range(first, days) for i in range(130 * parameters)]
        names = "/".join(f"0.{category}.{parameter}" for category, parameter in PARAMETERS[:parameters])
        self.request = (f"retrieve,class=od,expver=0001,date=202401{first + 1:02}/to/202401{days:02},time=00,centre=98,type=1,levtype=100,param={names},"
                        f"step=0/to/54/by/6,levelist={'/'.join(map(str, LEVELS))}\n").encode()


class Sent:
    """The fields that were sent for each key, in their order, and which of them may still be found at the earliest."""

    plain, number = {}, 0

    def __init__(self):
        self.fields, self.least = {}, {}

    def field(self, key, octets=4):
        """Sends a new field of the key: its message, and the key with its place among those of the key."""
        if (key, octets) not in Sent.plain:
            Sent.plain[key, octets] = message(key, octets)
        Sent.number += 1
        whole = Sent.plain[key, octets]
        whole = whole[:-4 - octets] + Sent.number.to_bytes(4, "big") + whole[-octets:]
        versions = self.fields.setdefault(key, [])
        versions.append(whole)
        return whole, (key, len(versions) - 1)

    def plain_field(self, key):
        """Sends the key's message as `generate` makes it."""
        versions = self.fields.setdefault(key, [])
        versions.append(message(key))
        return versions[-1], (key, len(versions) - 1)

    def acknowledge(self, places):
        for key, place in places:
            self.least[key] = max(place, self.least.get(key, 0))

    def copy(self):
        other = Sent()
        other.fields = {key: list(versions) for key, versions in self.fields.items()}
        other.least = dict(self.least)
        return other

    def of_day(self, day):
        """What was sent to the dataset of one day."""
        other = self.copy()
        other.least = {key: place for key, place in self.least.items() if key // 650 == day}
        return other

    def judge(self, have):
        """How many keys have lost an acknowledged field (or have an older one), and how many have one that was never sent."""
        lost = torn = 0
        for key, field in have.items():
            versions = self.fields.get(key, [])
            if field is None:
                lost += key in self.least
            elif field not in versions:
                torn += 1
            else:
                # the last place of these octets, since a key may have been sent the same twice
                lost += len(versions) - 1 - versions[::-1].index(field) < self.least.get(key, 0)
        return lost, torn

    def is_front(self, have, chain):
        """Of these places, in the order in which they were sent, those that are found are the first ones, but for keys of which a newer
        field is found."""
        found = {key: self.fields[key].index(field) for key, field in have.items() if field in self.fields.get(key, [])}
        reached = max((at for at, (key, place) in enumerate(chain) if found.get(key) == place), default=-1)
        return all(found.get(key, -1) >= place for key, place in chain[:max(reached, 0)])

    def take(self, have):
        """What an opening has found counts as acknowledged."""
        for key, field in have.items():
            if field is not None and field in self.fields.get(key, []):
                self.acknowledge([(key, self.fields[key].index(field))])


class Program:
    """The program, as it is started."""

    def __init__(self, path):
        self.path = path

    def run(self, words, given=b"", limit=120, **others):
        """Its status, output and report. A run that doesn't end is killed, and has no status."""
        child = subprocess.Popen([self.path, *words], stdin=subprocess.PIPE, stdout=subprocess.PIPE, stderr=subprocess.PIPE, **others)
        try:
            out, told = child.communicate(given, limit)
        except subprocess.TimeoutExpired:
            child.kill()
            out, told = child.communicate()
            return None, out, told.decode(errors="replace")
        return child.returncode, out, told.decode(errors="replace")

    def found(self, store, scope, sent, **others):
        """The field of each key of the scope, None at a miss; or None and what a retrieve said in their place."""
        status, octets, told = self.run(["retrieve", store], scope.request, **others)
        if status not in (0, 1):
            return None, f"retrieve ended with {status}: {told.strip()[-200:]}"
        missed = {line[5:] for line in told.splitlines() if line.startswith("miss ")}
        have, place = {}, 0
        for key in scope.keys:
            if text_of(key) in missed:
                have[key] = None
                continue
            length = int.from_bytes(octets[place + 8:place + 16], "big")
            if octets[place:place + 4] != b"GRIB" or length > len(octets) - place:
                # nothing to go by: as long as the last one that was sent
                length = len(sent.fields.get(key, [b"?"])[-1])
            have[key] = octets[place:place + length]
            place += length
        return (have, None) if place == len(octets) else (None, "the output has other octets than its fields")


def archive_words(store, workers=1):
    return ["archive", store, *WITH, *(["--workers", str(workers)] if workers > 1 else [])]


def session_input(sent, day, lanes, puts, flushes, readers=0, keys=range(130)):
    """A session in the dataset of a day: lanes that each put fields of keys of their own, out of these, and list them, and lanes
    that read. Returns its input, and for each writing lane its steps: the place of a put, None at a flush."""
    lines, octets, steps = [f"dataset {dataset_of(day)}"], [], {}
    for lane in range(lanes):
        lines.append(f"lane w{lane} class=od,expver=0001")
        steps[f"w{lane}"] = chain = []
        own = keys[lane::lanes]
        for turn in range(flushes):
            for put in range(puts):
                whole, place = sent.field(650 * day + own[(turn * puts + put) % len(own)])
                octets.append(whole)
                chain.append(place)
                lines.append(f"put {len(octets)}")
            chain.append(None)
            lines.append("flush")
    for lane in range(readers):
        lines.append(f"lane r{lane} class=od,expver=0001")
        for turn in range(10):
            lines.append(f"get retrieve,{text_of(650 * day + (7 * turn + lane) % 130)}")
    return ("\n".join(lines) + "\nmessages\n").encode() + b"".join(octets), steps


def listed_by(transcript, steps):
    """The places that the transcript of a session tells to be listed: what a lane had put when a flush of it was listed."""
    listed, ends = [], {}
    for line in transcript.splitlines():
        told = re.fullmatch(r"(w\d+) (\d+) (put ok|flush \d+)", line)
        if told:
            ends[told[1], int(told[2])] = told[3]
    for lane, chain in steps.items():
        pending = []
        for number, place in enumerate(chain, 1):
            end = ends.get((lane, number), "")
            if place is not None and end == "put ok":
                pending.append(place)
            elif place is None and end.startswith("flush "):
                listed += pending
                pending = []
    return listed
