#!/usr/bin/env bash
# Tries wrong bodies: bench/bodies.sh CRATE.. takes those that the gate tries (`crates/CRATE/must-fail`) and those that it doesn't
# (`bench/bodies/CRATE`), and bench/bodies.sh CRATE/NAME one of them. Each is tried on a copy of the checkout by its cheapest check:
# of the functions that it changes, or of the whole crate where these can't be told. It prints the open goals of each. One is
# refused where a goal of a clause is open: of an `ensures`, of a loop's invariant, of a type's invariant, or of a `requires` that a
# function of this repository has. An edit is NOT refused, and the line says why, where it only takes a name away that a proof file
# cites, where all that is open is a sum, an index or the like that may be out of bounds, where it doesn't read or compile, or where
# it is proved. The last line has both numbers; the script ends with 1 where one is not refused. Libraries below that are built (`rt lib`, or an `rt ci` that was run
# here) are taken; others are proved first. SECONDS_EACH (900) is what one check may take; SAID is a folder for what the checks
# say. No part of the gate.
set -u
top=$(cd "$(dirname "$0")/.." && pwd)
if [ $# = 0 ]; then
    sed -n '2,3s/^# //p' "$0" >&2
    exit 2
fi
work=$(mktemp -d)
trap 'rm -rf "$work"' EXIT
trap 'exit 130' INT TERM
python3 - "$top" "$work/fdb" "${SECONDS_EACH:-900}" "$@" <<'PY'
import glob, os, re, shutil, subprocess, sys, time

top, copy, most = sys.argv[1], sys.argv[2], float(sys.argv[3])
WORD_FN = re.compile(r"(\s*)(?:pub(?:\([^)]*\))?\s+)?(?:(?:const|unsafe|async)\s+)*fn\s+(\w+)")
LOST = re.compile(r"has no field|is not in scope|has no `|was not admitted|is no name|answers no goal|no such goal|is not a goal")


def link(one, other):
    try:
        os.link(one, other)
    except OSError:
        shutil.copy2(one, other)


# A copy of what a check reads. Built libraries are linked, since a check replaces such a file and never writes into it.
def copied():
    def passed_over(at, names):
        return [it for it in names if it in (".git", "out", "must-fail", "bodies", "__pycache__")]

    shutil.copytree(top, copy, symlinks=True, ignore=passed_over)
    for folder in glob.glob(f"{top}/crates/*/out/rlib"):
        shutil.copytree(folder, copy + folder[len(top):], symlinks=True, copy_function=link)


def text_of(path):
    with open(path, encoding="utf-8") as it:
        return it.read()


# The pairs of an edit: the file, what stands there once, and what is put in its place.
def pairs_of(path):
    file = old = ""
    pairs = []
    for line in text_of(path).split("\n"):
        if line.startswith("file: "):
            file = line[6:].strip()
        elif line.startswith("old: "):
            old = line[5:]
        elif line.startswith("new:"):
            pairs.append((file, old, re.sub(r"\A ", "", line[4:])))
    return pairs


# The function in whose text a place lies, with the type of its `impl`, or None: code is laid out, so a function ends at a brace
# that stands as far in as its `fn`.
def function_at(text, place):
    lines = text.split("\n")
    row = text.count("\n", 0, place)
    for at in range(row, -1, -1):
        found = WORD_FN.match(lines[at])
        if not found:
            continue
        inset, name = found.groups()
        if any(it == inset + "}" for it in lines[at:row]):
            return None
        if not inset:
            return "", name
        for above in range(at, -1, -1):
            if re.match(r"macro_rules!", lines[above]):
                return None
            if re.match(r"(unsafe )?(impl|(pub(\([^)]*\))? )?trait)\b", lines[above]):
                return type_in(" ".join(lines[above:at])), name
        return "", name
    return None


# The type that an `impl` is of, or the trait's name.
def type_in(head):
    head = re.sub(r"^(unsafe )?(pub(\([^)]*\))? )?", "", head.split("{")[0])
    depth, plain = 0, ""
    for one, before in zip(head, " " + head):
        if one == ">" and before != "-":
            depth -= 1
        elif one == "<":
            depth += 1
        elif not depth:
            plain += one
    words = re.findall(r"\w+", plain.split(" where ")[0])
    return words[words.index("for") + 1] if "for" in words else words[1]


def module_of(file):
    inner = re.sub(r"\Asrc/|\.rt\Z", "", file)
    return "" if inner in ("lib", "main") else inner.replace("/", "::")


def check(crate, only):
    words = ["rt", "check", "--jobs", "1", *[it for name in only for it in ("--only", name)]]
    try:
        ran = subprocess.run(words, cwd=f"{copy}/crates/{crate}", stdin=subprocess.DEVNULL, capture_output=True, errors="replace", timeout=most)
        kept_said(crate, only, ran.stdout + ran.stderr)
        return ran.stdout + ran.stderr
    except subprocess.TimeoutExpired:
        return None


def kept_said(crate, only, said):
    if os.environ.get("SAID"):
        os.makedirs(os.environ["SAID"], exist_ok=True)
        with open(f"{os.environ['SAID']}/{len(os.listdir(os.environ['SAID'])):03}-{crate}", "w", encoding="utf-8") as it:
            it.write(f"--only {' --only '.join(only)}\n{said}")


# What to check of the crate for these functions: their names, or none for all of it. The check names those that a name may mean.
def names_for(crate, found):
    names = []
    for module, kind, name in found:
        said = check(crate, [f"{kind}::{name}" if kind else name])
        if said is not None and "has no function" in said and kind:
            said = check(crate, [name])
        meant = re.search(r"several functions are named `[^`]*`: help: write one of (.*)", said or "")
        if meant:
            all_of = re.findall(r"`([^`]+)`", meant[1])
            of_module = [it for it in all_of if it.startswith(f"{crate}::{module}::" if module else f"{crate}::")]
            of_type = [it for it in of_module if not kind or it.split("::")[-2].startswith(kind)]
            names += of_type or of_module or all_of
            continue
        if not re.search(r"^(only=\d|fn )", said or "", re.M):
            return [], said
        # (it checks what the function calls too)
        whole = [it for it in re.findall(r"^fn (\S+): ", said, re.M) if it.endswith(f"::{name}")]
        names.append(whole[0] if len(whole) == 1 else name)
        if len(found) == 1:
            return names, said
    return names, None


# The functions of this repository that require something: a signature goes on to a line that ends in a brace.
def requiring():
    names = set()
    for path in glob.glob(f"{copy}/crates/*/src/**/*.rt", recursive=True):
        name = ""
        for line in text_of(path).split("\n"):
            found = re.match(r"\s*(?:pub(?:\([^)]*\))?\s+)?fn (\w+)", line)
            name = found[1] if found else name
            if name and re.match(r"\s+requires\b", line):
                names.add(name)
            elif line.rstrip().endswith("{"):
                name = ""
    return names


def is_clause(goal, callees):
    if goal.startswith(("overflow_", "bounds-", "slice_bounds-", "offset_bounds-", "nonzero_")):
        return False
    if "-requires" in goal:
        return goal.split("-")[0] in callees
    return "-clause-" in goal or goal.startswith(("returns", "invariant_of-")) or bool(re.search(r"-(preserved|init)(-|$)", goal))


# What a goal is about, which stays the same where an edit renames what the goal is named after.
def tail_of(goal):
    goal = goal.rsplit("goal.", 1)[-1]
    return goal.split("-clause-")[1] if "-clause-" in goal else goal.split("-")[0]


# The goals that are open; those of them that were shown to be open (an answer that doesn't fit, or values at which the goal is
# false); what the goals are about whose answers lost a name; and the first line that says so.
def goals_in(said):
    open_, shown, tails, lost = [], set(), set(), ""
    for line in said.split("\n"):
        error = re.match(r"(?:\./)?(proofs/\S+?):\d+:\d+: error: (?:`([^`]+)`: )?(.*)", line)
        if error and LOST.search(error[3]):
            lost = lost or line
            tails |= {tail_of(it) for it in ([error[2]] if error[2] else re.findall(r"`([^`]+)`", error[3]))}
        elif error and error[2]:
            open_.append(error[2])
            shown.add(error[2])
        for goal in re.findall(r"it is not proved that .* \(`([^`]+)`\)", line):
            open_.append(goal)
            if "values at which this goal is false" in line:
                shown.add(goal)
        for part in re.findall(r"`search` did not prove ((?:`[^`]+`(?:, | and )?)+)", line):
            open_ += re.findall(r"`([^`]+)`", part)
        false = re.match(r"note: `([^`]+)` of \S+ may be false", line)
        if false:
            shown.add(false[1])
    return list(dict.fromkeys(open_)), shown, tails, lost


# Whether an edit is refused, and what to say of it.
def tried(crate, path, callees):
    texts, found = {}, []
    for file, old, new in pairs_of(path):
        place = f"{copy}/crates/{crate}/{file}"
        if not file or not os.path.isfile(place):
            return False, f"doesn't apply: there is no file {file}"
        now = texts.setdefault(place, text_of(place))
        if not old or now.count(old) != 1:
            return False, f"doesn't apply: `{old[:50]}` is in {file} {now.count(old)} times"
        at = function_at(now, now.index(old)) if file.startswith("src/") else None
        found.append(at and (module_of(file), *at))
        texts[place] = now.replace(old, new)
    if not found:
        return False, "doesn't apply: it has no pair of lines"
    was = {place: text_of(place) for place in texts}
    try:
        for place, text in texts.items():
            with open(place, "w", encoding="utf-8") as it:
                it.write(text)
        names, said = ([], None) if None in found else names_for(crate, list(dict.fromkeys(found)))
        if said is None or not names and "error[" not in said:
            said = check(crate, names)
    finally:
        for place, text in was.items():
            with open(place, "w", encoding="utf-8") as it:
                it.write(text)
    return judged(said, ", ".join(names) or f"all of {crate}", callees)


def judged(said, of, callees):
    if said is None:
        return False, f"no verdict in {most:.0f} seconds ({of})"
    open_, shown, tails, lost = goals_in(said)
    # (a goal that no answer was given for counts where no answer to such a goal lost a name: it may be that one, renamed)
    clauses = [it for it in open_ if is_clause(it, callees) and (it in shown or tail_of(it) not in tails)]
    if clauses:
        others = [it for it in open_ if it not in clauses]
        return True, f"{', '.join(clauses)} ({of}{'; open too: ' + ', '.join(others) if others else ''})"
    bad = re.search(r"^.*error\[[\w-]+\].*$", said, re.M) or re.search(r"^(?:\./)?(?:src|specs)/\S+: error.*$", said, re.M)
    if bad:
        return False, f"doesn't read or compile: {bad[0][:200]}"
    if lost:
        return False, f"lost a name: {lost[:200]} ({of})"
    if open_:
        return False, f"no clause, but {', '.join(open_)} ({of})"
    if re.search(r"^only=(\d+) proved=\1$", said, re.M) or re.search(r"^logic=proved", said, re.M):
        return False, f"proved ({of})"
    last = [it for it in said.split("\n") if it][-1:]
    return False, f"no verdict: {last[0][:200] if last else 'nothing was said'} ({of})"


copied()
callees = requiring()
refused = left = 0
for word in sys.argv[4:]:
    crate, _, name = word.strip("/").partition("/")
    edits = sorted(glob.glob(f"{top}/crates/{crate}/must-fail/{name or '*'}.edit") + glob.glob(f"{top}/bench/bodies/{crate}/{name or '*'}.edit"))
    if not edits:
        print(f"NOT      {word}: there is no such edit", flush=True)
        left += 1
    for path in edits:
        start = time.time()
        is_refused, what = tried(crate, path, callees)
        refused, left = refused + is_refused, left + (not is_refused)
        print(f"{'refused ' if is_refused else 'NOT     '} {crate}/{os.path.basename(path)[:-5]}: {what}, {time.time() - start:.0f} s", flush=True)
print(f"{refused} refused, {left} not")
sys.exit(left > 0)
PY
