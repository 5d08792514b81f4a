#!/usr/bin/env python3
"""Turns the old: and new: texts of the must-fail edits to today's spelling, by what port.py and tools/spelling.py make of the edited files.

usage: python3 tools/edits.py ROOM      at the top of the repository

LANDED (the first line of docs/PORT.md) is what the edits were written for. In each batch every line of a file has at most one edit; a clone of
LANDED with a batch's edits applied is turned by port.py and tools/spelling.py; where it then differs from the commit that the second line names,
in which LANDED was turned without any edit, stand the new texts.
ROOM keeps the clones, and a second run takes them from there. An edit is written where each of its texts stands exactly once in today's file;
the others are printed, and are for the hand. Comments and file: lines stay.
"""

import difflib
import glob
import importlib.util
import os
import re
import subprocess
import sys
from concurrent.futures import ThreadPoolExecutor

TOP = os.getcwd()
APART = 3  # lines between the edits of one file in one batch
PORT = "/opt/rattle/port/port.py"


def read(path):
    with open(path, encoding="utf-8") as it:
        return it.read()


def write(path, text):
    with open(path, "w", encoding="utf-8") as it:
        it.write(text)


def run(*words, where):
    return subprocess.run(words, cwd=where, stdout=subprocess.PIPE, stderr=subprocess.STDOUT, text=True, errors="replace")


def pairs_of(text):
    """The (file, old, new) of an edit, in order."""
    path, old, out = "", None, []
    for line in text.split("\n"):
        if line.startswith("file: "):
            path = line[len("file: ") :].strip()
        elif line.startswith("old: "):
            old = line[len("old: ") :]
        elif line.startswith("new:"):
            out.append((path, old, line[len("new:") :].removeprefix(" ")))
    return out


def clone(room, name, landed):
    to = f"{room}/{name}"
    if os.path.isdir(to):
        return to, False
    subprocess.run(["git", "clone", "-q", TOP, to], check=True)
    subprocess.run(["git", "checkout", "-q", "--detach", landed], cwd=to, check=True)
    return to, True


def turned(room, name):
    """port.py and tools/spelling.py over a clone; port.py keeps what it says below ROOM, so that clones can be turned at one time."""
    to = f"{room}/{name}"
    if os.path.exists(f"{to}.done"):
        return
    code = f"import importlib.util as u; s = u.spec_from_file_location('port', {PORT!r}); p = u.module_from_spec(s); s.loader.exec_module(p); p.SAID = {to + '.said'!r}; raise SystemExit(p.main([]) or 0)"
    ran = run(sys.executable, "-B", "-c", code, where=to)
    write(f"{to}.log", ran.stdout)
    if ran.returncode:
        print(f"{name}: port.py failed: {to}.log")
        return
    ran = run(sys.executable, f"{TOP}/tools/spelling.py", where=to)
    write(f"{to}.done", ran.stdout)


USE = re.compile(r"^(?:pub )?(?:ghost )?use (\S+)\.\{([^}]*)\}")


def imports(text):
    """The names of each `use` line: by module, and the line."""
    out = {}
    for line in text.split("\n"):
        m = USE.match(line)
        if m:
            out[m[1]] = ([n.strip() for n in m[2].split(",")], line)
    return out


def imported(path, n):
    return bool(re.match(r"\s*(pub )?(ghost )?(use|import|open) ", read(path).split("\n")[n]))


def hunks(one, other):
    """The pairs of lines in which two texts differ (lines of `use` are looked at by themselves), and the places laid out anew."""
    a, b = ([l for l in t.split("\n") if not USE.match(l)] for t in (one, other))
    for tag, i, j, k, l in difflib.SequenceMatcher(None, a, b, autojunk=False).get_opcodes():
        if tag == "equal":
            continue
        if j - i == l - k:
            for x in range(j - i):
                if a[i + x] != b[k + x]:
                    yield i + x, a[i + x], b[k + x]
        else:
            yield i, None, None


def words(line):
    return re.findall(r"[^\s(){}\[\],;:]+|\s+|.", line)


def window(landed, old, ported):
    """Where in a turned line the words stand that an old text names in its line of LANDED."""
    plain = lambda w: re.sub(r"[-_◌\s]", "", w)
    a, b = words(landed), words(ported)
    start = landed.index(old)
    at, s, e = 0, len(a), 0
    for i, w in enumerate(a):
        if at + len(w) > start and at < start + len(old):
            s, e = min(s, i), i + 1
        at += len(w)
    found = [(i + x, j + x) for i, j, n in difflib.SequenceMatcher(None, [plain(w) for w in a], [plain(w) for w in b], autojunk=False).get_matching_blocks() for x in range(n)]
    inside = [j for i, j in found if s <= i < e]
    return (inside[0], inside[-1] + 1) if inside else (0, len(b))


def narrowed(landed, old, one, other, file):
    """The part of a turned line that an edit names: about the words that it named, and as many more as make it stand once in the file."""
    a, b = words(one), words(other)
    s = 0
    while s < min(len(a), len(b)) and a[s] == b[s]:
        s += 1
    e = 0
    while e < min(len(a), len(b)) - s and a[-1 - e] == b[-1 - e]:
        e += 1
    left, right = window(landed, old, one)
    s, e = min(s, left), min(e, len(a) - right)
    first = next((i for i, w in enumerate(a) if w.strip()), 0)
    while True:
        text = "".join(a[s : len(a) - e])
        depth = low = 0
        for c in text:
            depth += (c in "([{") - (c in ")]}")
            low = min(low, depth)
        if s < len(a) and not a[s].strip() and s > first:
            s -= 1
        elif e and not a[-1 - e].strip():
            e -= 1
        elif low < 0 and s > first:
            s -= 1
        elif depth > low and e:
            e -= 1
        elif file.count(text.lstrip() if s <= first else text) == 1:
            break
        elif s > first:
            s -= 1
        elif e:
            e -= 1
        else:
            return None
    s = max(s, first)
    return "".join(a[s : len(a) - e]), "".join(b[s : len(b) - e])


def main(room):
    room = os.path.abspath(room)
    os.makedirs(room, exist_ok=True)
    landed, ported = read("docs/PORT.md").split("\n")[:2]
    base, _ = clone(room, "ported", ported)
    was = f"{room}/landed"
    clone(room, "landed", landed)
    edits = sorted(os.path.relpath(e, was) for e in glob.glob(f"{was}/crates/*/must-fail/*.edit"))
    at, batches = {}, []  # at: an edit's (crate file, line, (its text, old)) for each pair
    for e in edits:
        crate = "/".join(e.split("/")[:2])
        spots = []
        for path, old, _ in pairs_of(read(f"{was}/{e}")):
            text = read(f"{was}/{crate}/{path}")
            if text.count(old) != 1:
                sys.exit(f"{e}: not once in LANDED: {old}")
            n = text[: text.index(old)].count("\n")
            spots.append((f"{crate}/{path}", n, (text.split("\n")[n], old)))
        at[e] = spots
        for b in batches:
            if not any(f == g and abs(n - m) < APART for o in b for f, n, _ in at[o] for g, m, _ in spots):
                b.append(e)
                break
        else:
            batches.append([e])
    print(f"{len(edits)} edits, {len(batches)} batches: {[len(b) for b in batches]}", flush=True)
    for k, b in enumerate(batches):
        to, new = clone(room, f"batch{k}", landed)
        if new:
            for e in b:
                crate = "/".join(e.split("/")[:2])
                for path, old, new in pairs_of(read(f"{was}/{e}")):
                    text = read(f"{to}/{crate}/{path}")
                    if text.count(old) != 1:
                        print(f"{e}: an edit of the same batch stands in the way: {old}")
                    write(f"{to}/{crate}/{path}", text.replace(old, new))
            run("git", "-c", "user.name=x", "-c", "user.email=x", "commit", "-qam", "edits", where=to)

    def kept(e, i, hunk, today):
        """The pair as it is, where it still does the same."""
        if [x[:2] for x in at[e]].count(at[e][i][:2]) > 1:
            return None
        _, old, new = pairs_of(read(f"{was}/{e}"))[i]
        n, one, other = hunk
        return (old, new) if today.count(old) == 1 and old in one and one.replace(old, new) == other else None

    with ThreadPoolExecutor(3) as pool:
        list(pool.map(lambda n: turned(room, n), [f"batch{k}" for k in range(len(batches))]))
    done, left = 0, []
    for k, b in enumerate(batches):
        if not os.path.exists(f"{room}/batch{k}.done"):
            left += [(e, "port.py failed on its batch") for e in b]
            continue
        more = {}  # (edit, file): pairs that import what the new text names
        found = {}  # (edit, pair): the (old, new), or why there is none, or None for a line of `use`
        per = {}
        for e in b:
            for i, (f, n, named) in enumerate(at[e]):
                if imported(f"{was}/{f}", n):
                    found[e, i] = None
                else:
                    per.setdefault(f, []).append((n, e, i, named))
        for f, spots in per.items():
            if not os.path.exists(f"{room}/batch{k}/{f}"):
                for _, e, i, _ in spots:
                    found[e, i] = f"{f} is no longer there"
                continue
            here = list(hunks(read(f"{base}/{f}"), read(f"{room}/batch{k}/{f}")))
            lines = sorted({n for n, *_ in spots})
            if len(here) != len(lines):
                near = "; ".join(f"{h[1]} => {h[2]}" for h in here)
                for _, e, i, _ in spots:
                    found[e, i] = f"{len(here)} places for {len(lines)} lines in {f}: {near}"
                continue
            today = read(f) if os.path.exists(f) else ""
            have, want = imports(today), imports(read(f"{room}/batch{k}/{f}"))
            known = {n for names, _ in have.values() for n in names}
            for module, (names, _) in want.items():
                for name in names:
                    if name in known:
                        continue
                    for n, e, i, _ in spots:
                        _, one, other = here[lines.index(n)]
                        if other and re.search(rf"(?<![\w.']){re.escape(name.strip('◌'))}(?![\w'])", other) and name.strip("◌") not in one:
                            if module in have:
                                more.setdefault((e, f), {})[name] = (f"use {module}.{{", f"use {module}.{{{name},")
                            else:
                                print(f"{e}: {f} imports no {module}.{name}")
            for n, e, i, named in spots:
                _, one, other = here[lines.index(n)]
                if one is None:
                    found[e, i] = f"laid out anew in {f}"
                else:
                    found[e, i] = kept(e, i, here[lines.index(n)], today) or narrowed(*named, one, other, today) or f"not once in today's {f}: {one.strip()} => {other.strip()}"
        for e in b:
            mine = [found[e, i] for i in range(len(at[e]))]
            bad = [m for m in mine if isinstance(m, str)]
            if bad:
                left.append((e, bad[0]))
                continue
            made, out, i, said = {g for (d, g) in more if d == e}, [], 0, set()
            if any(m is None and at[e][j][0] not in made for j, m in enumerate(mine)):
                print(f"{e}: it changed a line of `use`, and now needs none")
            for line in read(f"{was}/{e}").split("\n"):
                if line.startswith("old: "):
                    fresh = mine[i] and at[e][i][:2] not in said
                    if fresh:
                        out.append(f"old: {mine[i][0]}")
                elif line.startswith("new:"):
                    if fresh:
                        out.append(f"new: {mine[i][1]}")
                    said.add(at[e][i][:2])
                    for pair in more.pop((e, at[e][i][0]), {}).values():
                        out += [f"old: {pair[0]}", f"new: {pair[1]}"]
                    i += 1
                else:
                    out.append(line)
            write(e, "\n".join(out))
            done += 1
    print(f"{done} edits written; left for the hand: {len(left)}")
    for e, why in left:
        print(f"{e}: {why[:400]}")


if __name__ == "__main__":
    if len(sys.argv) != 2:
        sys.exit(__doc__)
    main(sys.argv[1])
