"""A disk that loses power, made up from a trace of system calls.

`read_trace` reads what `strace -f -xx` wrote of commands that ran one after another; `Disk` goes through it and knows, for each
moment of the trace, what was firm by then and what was only written. `Disk.state` makes one of the trees of folders and files that a
power cut at that moment might leave:
  - what a sync covered that ended before stays: of a file its bytes and its length, of a folder the names in it;
  - a name that is firm in no folder may be there or not, and with a folder that isn't there all that is in it is gone;
  - a rename that isn't firm happened, or didn't, or left both names;
  - each write that isn't firm is kept, dropped, cut, kept in some sectors, zeros, or any bytes; a file that grew has any length between, and
    zeros or any bytes behind its firm end where no write was kept;
  - what a sync that failed was to cover is made firm by no later one, as on Linux, which forgets it, but for names, which go with a
    later change of their folder; nor is what is written again into a new block of the file, as on ext4, whose block stays one that was
    never written, unless the file was cut before that block in between.
Any call that changes files and isn't known here ends the reading.
"""
import bisect
import os
import re

CALLS = ("openat,openat2,open,creat,close,write,pwrite64,writev,pwritev,pwritev2,fsync,fdatasync,syncfs,sync,rename,renameat,renameat2,"
         "link,linkat,symlink,symlinkat,unlink,unlinkat,rmdir,mkdir,mkdirat,ftruncate,truncate,fallocate,dup,dup2,dup3,fcntl,lseek,"
         "copy_file_range,sendfile,splice,mmap,chdir,fchdir,io_uring_setup,mknod,mknodat")
SECTOR, BLOCK = 512, 4096


class Unknown(Exception):
    """The trace has something that the model doesn't know."""


class Call:
    """A system call: its name, its arguments as text, its answer, and at which lines it began and ended."""

    __slots__ = ("thread", "name", "words", "answer", "begun", "ended")

    def __init__(self, thread, name, words, answer, begun, ended):
        self.thread, self.name, self.words, self.answer, self.begun, self.ended = thread, name, words, answer, begun, ended


def words_of(text):
    """The arguments: split at commas outside of quotes and brackets."""
    found, depth, start = [], 0, 0
    for mark in re.finditer(r'"[^"]*"|[][{}(),]', text):
        if mark[0] in "[{(":
            depth += 1
        elif mark[0] in "]})":
            depth -= 1
        elif mark[0] == "," and depth == 0:
            found.append(text[start:mark.start()].strip())
            start = mark.end()
    return found + [text[start:].strip()]


def octets_of(word):
    """The octets of a string of the trace."""
    quoted = re.fullmatch(r'"((?:\\x[0-9a-f]{2})*)"', word)
    if not quoted:
        raise Unknown(f"a string that was cut or isn't in hexadecimal: {word[:60]}")
    return bytes.fromhex(quoted[1].replace("\\x", ""))


def read_trace(path, first):
    """The calls of a command in the order in which they ended, the numbers of whose lines begin at `first`, and the next number."""
    calls, open_calls, number = [], {}, first
    for number, line in enumerate(open(path, encoding="latin-1"), first):
        thread, _, rest = line.rstrip("\n").partition(" ")
        rest = rest.strip()
        if rest.startswith(("+++", "---")):
            continue
        resumed = re.match(r"<\.\.\. (\w+) resumed>", rest)
        if resumed:
            begun, front = open_calls.pop(thread)
            rest = front + rest[resumed.end():]
        elif rest.endswith("<unfinished ...>"):
            open_calls[thread] = (number, rest[:-len("<unfinished ...>")])
            continue
        else:
            begun = number
        parts = re.fullmatch(r"(\w+)\((.*)\)\s+= (\S+)(?: .*)?", rest, re.S)
        if not parts:
            raise Unknown(f"line: {rest[:100]}")
        calls.append(Call(thread, parts[1], words_of(parts[2]), parts[3], begun, number))
    return calls, number + 1


class Node:
    """A file or a folder: what it holds now, and what changed it, each change with the lines of its call."""

    def __init__(self, is_folder, base=b""):
        self.is_folder, self.changes, self.syncs, self.failed = is_folder, [], [], []
        self.base = dict(base) if is_folder else bytes(base)
        self.now = dict(base) if is_folder else bytearray(base)

    def apply(self, call, *what):
        """A change: `set name node`, `unset name`, `rename old new node`, `write at octets`, `length n`."""
        self.changes.append((call.begun, call.ended, what))
        if self.is_folder:
            change_names(self.now, what)
        else:
            change_octets(self.now, what)


def change_names(names, what):
    if what[0] == "set":
        names[what[1]] = what[2]
    elif what[0] == "unset":
        names.pop(what[1], None)
    else:
        names.pop(what[1], None)
        names[what[2]] = what[3]


def change_octets(octets, what):
    if what[0] == "write":
        at, written = what[1], what[2]
        if len(octets) < at:
            octets.extend(bytes(at - len(octets)))
        octets[at:at + len(written)] = written
    elif what[1] <= len(octets):
        del octets[what[1]:]
    else:
        octets.extend(bytes(what[1] - len(octets)))


def folder_of(path):
    """The tree of what stands under a folder of the host."""
    node = Node(True)
    for entry in os.scandir(path):
        below = folder_of(entry.path) if entry.is_dir(follow_symlinks=False) else Node(False, open(entry.path, "rb").read())
        node.base[entry.name] = node.now[entry.name] = below
    return node


class Disk:
    """The folder `top`, from what it holds when this is made, which is firm, through the calls that are played."""

    def __init__(self, top):
        self.top, self.root = os.path.realpath(top), folder_of(top)
        self.nodes, self.syncs, self.handles, self.moments, self.marks = [], [], {}, [], []
        self.gather(self.root)

    def gather(self, node):
        self.nodes.append(node)
        if node.is_folder:
            for below in node.now.values():
                self.gather(below)

    def play(self, calls):
        """The calls of one command. Its handles are its own, and `moments` are the lines where it told something."""
        self.handles, self.moments = {}, []
        # a handle that is being closed may be another thread's before that call is told to have ended
        for call in sorted(calls, key=lambda call: call.begun if call.name == "close" else call.ended):
            failed = call.answer.startswith("-") or call.answer == "?"
            method = getattr(self, f"on_{call.name}", None)
            if method is None:
                raise Unknown(f"the call {call.name}")
            if failed and call.name in ("fsync", "fdatasync") and self.handle(call):
                self.handle(call)[1].failed.append((call.begun, call.ended))
            if failed and call.name not in ("write", "pwrite64", "writev", "pwritev", "pwritev2", "ftruncate", "truncate", "close"):
                continue
            if failed and call.name != "close":
                raise Unknown(f"a {call.name} that failed: {call.answer}")
            method(call)

    # what a path of a call names: the folder that it is in and its last part, or None where it is outside
    def place(self, at, word):
        path = octets_of(word).decode()
        if not path.startswith("/"):
            if at == "AT_FDCWD":
                path = os.path.join(os.getcwd(), path)
            elif int(at) in self.handles:
                path = os.path.join(self.handles[int(at)][0], path)
            else:
                return None
        path = os.path.normpath(path)
        if path == self.top:
            return None, path
        if not path.startswith(self.top + "/"):
            return None
        node = self.root
        for part in path[len(self.top) + 1:].split("/")[:-1]:
            node = node.now[part]
        return node, path

    def on_openat(self, call, flags=2):
        at, word = call.words[0], call.words[1]
        found, asked = self.place(at, word), call.words[flags]
        handle = int(call.answer)
        self.handles.pop(handle, None)
        if found is None:
            return
        folder, path = found
        if folder is None:
            self.handles[handle] = [path, self.root, 0]
            return
        name = os.path.basename(path)
        node = folder.now.get(name)
        if node is None:
            node = Node(False)
            self.nodes.append(node)
            folder.apply(call, "set", name, node)
        elif "O_TRUNC" in asked and len(node.now):
            node.apply(call, "length", 0)
        self.handles[handle] = [path, node, "end" if "O_APPEND" in asked else 0]

    def on_open(self, call):
        call.words.insert(0, "AT_FDCWD")
        self.on_openat(call)

    def on_creat(self, call):
        call.words = ["AT_FDCWD", call.words[0], "O_TRUNC"]
        self.on_openat(call)

    def on_openat2(self, call):
        self.on_openat(call)

    def on_close(self, call):
        self.handles.pop(int(call.words[0]), None)

    def on_dup(self, call):
        if int(call.words[0]) in self.handles:
            self.handles[int(call.answer)] = self.handles[int(call.words[0])]

    on_dup2 = on_dup3 = on_dup

    def on_fcntl(self, call):
        if "F_DUPFD" in call.words[1]:
            self.on_dup(call)

    def handle(self, call):
        return self.handles.get(int(call.words[0]))

    def on_write(self, call):
        if call.words[0] == "2":
            self.moments.append(call.begun)
        self.put(call, [octets_of(call.words[1])] if self.handle(call) else [], None)

    def on_pwrite64(self, call):
        self.put(call, [octets_of(call.words[1])] if self.handle(call) else [], int(call.words[3]))

    def on_writev(self, call, at=None):
        if call.words[0] == "2":
            self.moments.append(call.begun)
        self.put(call, [octets_of(word) for word in re.findall(r'iov_base=("[^"]*")', call.words[1])] if self.handle(call) else [], at)

    def on_pwritev(self, call):
        self.on_writev(call, int(call.words[3]))

    on_pwritev2 = on_pwritev

    def put(self, call, pieces, at):
        handle = self.handle(call)
        if handle is None:
            return
        written = b"".join(pieces)[:int(call.answer)]
        if at is None:
            at = len(handle[1].now) if handle[2] == "end" else handle[2]
            handle[2] = handle[2] if handle[2] == "end" else at + len(written)
        handle[1].apply(call, "write", at, written)

    def on_lseek(self, call):
        if self.handle(call):
            self.handle(call)[2] = int(call.answer)

    def on_ftruncate(self, call):
        if self.handle(call):
            self.handle(call)[1].apply(call, "length", int(call.words[1]))

    def on_truncate(self, call):
        found = self.place("AT_FDCWD", call.words[0])
        if found:
            found[0].now[os.path.basename(found[1])].apply(call, "length", int(call.words[1]))

    def on_fsync(self, call):
        if self.handle(call):
            self.handle(call)[1].syncs.append((call.begun, call.ended))

    on_fdatasync = on_fsync

    def on_syncfs(self, call):
        if self.handle(call):
            self.syncs.append((call.begun, call.ended))

    def on_sync(self, call):
        self.syncs.append((call.begun, call.ended))

    def on_mkdir(self, call, at="AT_FDCWD", word=0):
        found = self.place(at, call.words[word])
        if found and found[0]:
            node = Node(True)
            self.nodes.append(node)
            found[0].apply(call, "set", os.path.basename(found[1]), node)

    def on_mkdirat(self, call):
        self.on_mkdir(call, call.words[0], 1)

    def on_rename(self, call, words=("AT_FDCWD", 0, "AT_FDCWD", 1)):
        old, new = self.place(words[0], call.words[words[1]]), self.place(words[2], call.words[words[3]])
        if not old and not new:
            return
        if not old or not new or old[0] is not new[0] or old[0] is None:
            raise Unknown("a rename between two folders")
        name = os.path.basename(old[1])
        old[0].apply(call, "rename", name, os.path.basename(new[1]), old[0].now[name])

    def on_renameat(self, call):
        if "RENAME_EXCHANGE" in call.words[-1]:
            raise Unknown("an exchange of names")
        self.on_rename(call, (call.words[0], 1, call.words[2], 3))

    on_renameat2 = on_renameat

    def on_link(self, call, words=("AT_FDCWD", 0, "AT_FDCWD", 1)):
        old, new = self.place(words[0], call.words[words[1]]), self.place(words[2], call.words[words[3]])
        if old and new:
            new[0].apply(call, "set", os.path.basename(new[1]), old[0].now[os.path.basename(old[1])])
        elif old or new:
            raise Unknown("a link out of the folder")

    def on_linkat(self, call):
        self.on_link(call, (call.words[0], 1, call.words[2], 3))

    def on_unlink(self, call, at="AT_FDCWD", word=0):
        found = self.place(at, call.words[word])
        if found and found[0]:
            found[0].apply(call, "unset", os.path.basename(found[1]))

    on_rmdir = on_unlink

    def on_unlinkat(self, call):
        self.on_unlink(call, call.words[0], 1)

    def on_mmap(self, call):
        if "MAP_SHARED" in call.words[3] and "PROT_WRITE" in call.words[2] and int(call.words[4]) in self.handles:
            raise Unknown("a file that is mapped for writing")

    def ready(self):
        """Finds for each change the line from which on it is firm, and the lines behind which something may be otherwise than before
        them. To be called once all is played."""
        marks = {sync[1] + 1 for sync in self.syncs}
        for node in self.nodes:
            marks.update(change[0] + 1 for change in node.changes)
            marks.update(sync[1] + 1 for sync in node.syncs)
        self.marks = sorted(marks)
        for node in self.nodes:
            syncs = sorted(node.syncs + self.syncs)
            begun = [sync[0] for sync in syncs]
            # the earliest end of this sync and of those behind it
            ends = [sync[1] for sync in syncs] + [float("inf")]
            for place in range(len(syncs) - 1, -1, -1):
                ends[place] = min(ends[place], ends[place + 1])
            lost = lost_names(node) if node.is_folder else lost_changes(node)
            node.changes = [(start, float("inf") if place in lost else ends[bisect.bisect_right(begun, end)], what)
                            for place, (start, end, what) in enumerate(node.changes)]
            if node.is_folder:
                with_later_names(node, lost)
            node.changes.sort(key=lambda change: change[0])

    def state(self, cut, chance, names, octets):
        """One of the trees that a power cut before the line `cut` might leave, as nested dictionaries of names. `names` and
        `octets` say how what isn't firm is dealt with: `keep`, `drop`, or another word for what chance says."""
        made = {}

        def tree(node):
            if id(node) not in made:
                made[id(node)] = left_of_folder(node, cut, chance, names) if node.is_folder else left_of_file(node, cut, chance, octets)
            found = made[id(node)]
            return {name: tree(below) for name, below in found.items()} if node.is_folder else found

        return tree(self.root)

    def differs(self):
        """What differs between the folder as the calls left it and as it stands on the host."""
        return differing(self.root, self.top)


def lost_names(node):
    """The places of the names that a sync of their folder was to cover that failed, and that no earlier one had covered."""
    lost = set()
    for failed, _ in node.failed:
        good = max((begun for begun, ended in node.syncs if ended < failed), default=-1)
        lost.update(place for place, (_, ended, _) in enumerate(node.changes) if good < ended < failed)
    return lost


def with_later_names(node, lost):
    """What was lost of a folder is written with a later change of it."""
    later = float("inf")
    for place in range(len(node.changes) - 1, -1, -1):
        begun, firm, what = node.changes[place]
        if place in lost:
            node.changes[place] = (begun, later, what)
        else:
            later = min(later, firm)


def lost_changes(node):
    """The places of the changes that a sync was to cover that failed, and of what was written again into new blocks of theirs."""
    lost = set()
    for failed, _ in sorted(node.failed):
        # what an earlier sync made firm stays
        good = max((sync[0] for sync in node.syncs if sync[1] < failed), default=-1)
        firm = len(node.base)
        spoiled = []
        for place, (begun, ended, what) in enumerate(node.changes):
            if ended < good and place not in lost:
                firm = firm_end(firm, what)
            elif ended < failed:
                lost.add(place)
                if what[0] == "write":
                    spoiled.append((max(what[1], -(-firm // BLOCK) * BLOCK) // BLOCK, -(-(what[1] + len(what[2])) // BLOCK)))
            elif what[0] == "length":
                spoiled = [(low, min(high, -(-what[1] // BLOCK))) for low, high in spoiled]
            elif what[0] == "write" and begun > failed:
                low, high = what[1] // BLOCK, -(-(what[1] + len(what[2])) // BLOCK)
                if any(max(low, other) < min(high, end) for other, end in spoiled):
                    lost.add(place)
    return lost


def firm_end(firm, what):
    if what[0] == "write":
        return max(firm, what[1] + len(what[2]))
    return what[1] if what[0] == "length" else firm


def differing(node, path):
    here = {entry.name: entry for entry in os.scandir(path)}
    for name in sorted(here.keys() ^ node.now.keys()):
        yield f"{path}/{name} {'stands' if name in here else 'does not stand'} there"
    for name in here.keys() & node.now.keys():
        below = node.now[name]
        if below.is_folder:
            yield from differing(below, f"{path}/{name}")
        elif open(f"{path}/{name}", "rb").read() != below.now:
            yield f"{path}/{name} has other octets"


def left_of_folder(node, cut, chance, mood):
    names = dict(node.base)
    for begun, firm, what in node.changes:
        if begun >= cut:
            break
        if firm < cut or mood == "keep":
            change_names(names, what)
        elif mood != "drop" and chance.random() < 0.5:
            if what[0] == "rename" and chance.random() < 0.3:
                what = ("set", what[2], what[3])
            change_names(names, what)
    return names


def left_of_file(node, cut, chance, mood):
    octets, lengths, is_loose = bytearray(node.base), [len(node.base)], False
    for begun, firm, what in node.changes:
        if begun >= cut:
            break
        end = what[1] + len(what[2]) if what[0] == "write" else what[1]
        if firm < cut:
            change_octets(octets, what)
            lengths = [max(length, end) if what[0] == "write" else end for length in lengths]
            continue
        is_loose = True
        lengths.append(max(lengths[-1], end) if what[0] == "write" else end)
        if mood == "keep":
            change_octets(octets, what)
        elif mood != "drop":
            leave(octets, what, chance, mood)
    if is_loose and mood not in ("keep", "drop"):
        cut_or_grow(octets, lengths, chance)
    return bytes(octets)


def leave(octets, what, chance, mood):
    """Does to the octets what a power cut may do with one change that isn't firm."""
    way = mood if mood in ("zeros", "any") else chance.choice(["keep", "keep", "drop", "cut", "sectors", "zeros", "any"])
    if way == "drop":
        return
    if what[0] == "length" or way == "keep":
        change_octets(octets, what)
        return
    at, written = what[1], what[2]
    if way == "cut":
        written = written[:chance.randrange(len(written) + 1)]
    elif way == "zeros":
        written = bytes(len(written))
    elif way == "any":
        # a single octet may become an open gate as well as any other
        written = chance.randbytes(len(written)) if len(written) > 1 else bytes([chance.choice([0, 0x4F, chance.randrange(256)])])
    if way != "sectors":
        change_octets(octets, ("write", at, written))
        return
    place = at
    while place < at + len(written):
        end = min(at + len(written), (place // SECTOR + 1) * SECTOR)
        if chance.random() < 0.5:
            change_octets(octets, ("write", place, written[place - at:end - at]))
        place = end


def cut_or_grow(octets, lengths, chance):
    """Gives the file a length that it may have: one of those that it had since it was firm, or one between them."""
    low, high = min(lengths), max(lengths)
    length = chance.choice([chance.choice(lengths), chance.choice(lengths), chance.randint(low, high), high])
    if length < len(octets):
        del octets[length:]
    elif chance.random() < 0.5:
        octets.extend(bytes(length - len(octets)))
    else:
        octets.extend(chance.randbytes(length - len(octets)))


def lay_out(tree, path):
    """Makes the tree as folders and files of the host."""
    os.mkdir(path)
    for name, below in tree.items():
        if isinstance(below, dict):
            lay_out(below, f"{path}/{name}")
        else:
            with open(f"{path}/{name}", "wb") as file:
                file.write(below)
