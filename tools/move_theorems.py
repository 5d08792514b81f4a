#!/usr/bin/env python3
"""Moves theorems from specs/F.antt to proofs/ of their crate, and rewrites what cites them in the whole repository.

usage: python3 tools/move_theorems.py        at the top of the repository; a second run, after a merge, moves what is new and mends what cites it

tools/theorems.txt says what moves: lines `CRATE F: NAME NAME ..`, or `CRATE F G: NAME ..` where they go to proofs/G.antt. A theorem in a `module _` takes the head of the module with it, and what is
private there and only says things shorter (infix, abbrev) stands in both files. Statements and proofs stay as they are, but for the arguments
that a name of the module takes outside it. A name that stays in specs/ and is private becomes pub where a theorem that moves cites it.
"""

import glob
import os
import re
import sys

USE = re.compile(r"^(\s*(?:pub )?(?:ghost )?use )(Rattle\.(\w+)\.(specs|proofs)\.([\w.]+))\.\{([^}]*)\}(;?)[ \t]*$", re.M)
ANY_USE = re.compile(r"^(?:pub )?use (\S+?)\.\{([^}]*)\}[ \t]*$")
MODS = r"(?:(?:abbrev|unfoldable|pub|mutual)\s+)*"
DECL = re.compile(rf"^{MODS}(?:(record|data)\s+(\S+)|([^\s(){{}}\[\]:]+(?: [^\s(){{}}\[\]:]+)*)(?: \{{[^}}]*\}})* :(?= |$))")
TOKEN = re.compile(r"[^\s(){}\[\],;.:λ`\"]+|\.")


def read(path):
    with open(path, encoding="utf-8") as it:
        return it.read()


def write(path, text):
    os.makedirs(os.path.dirname(path), exist_ok=True)
    with open(path, "w", encoding="utf-8") as it:
        it.write(text)


def tokens(text):
    """The names in a text: not those after a dot (fields), and not in comments."""
    out, last = set(), ""
    for line in text.split("\n"):
        line = re.sub(r"(^|\s)--.*", "", line)
        for m in TOKEN.finditer(line):
            if m[0] != "." and not (last == "." and line[m.start() - 1 : m.start()] == "." and m.start() > 1 and line[m.start() - 2] not in " ({[;,"):
                out.add(m[0])
            last = m[0]
        if "[]" in line:
            out.add("[]")
    return out


def cites(names, text_tokens):
    """Which of the names a text with these tokens cites; an operator by all of its parts."""
    return {n for n in names if all(p in text_tokens for p in n.split("◌") if p)}


class Item:
    """A declaration (or more, that stand without a blank line), or a `module _` with items."""

    def __init__(self, comment, lines, depth):
        self.comment, self.lines, self.depth, self.items, self.names, self.kind = comment, lines, depth, None, [], "theorem"
        pad = " " * depth
        if lines[0].startswith(pad + "module "):
            end = next(i for i, l in enumerate(lines) if l.rstrip().endswith("where"))
            self.lines, self.kind = lines[: end + 1], "module"
            self.items = parse(lines[end + 1 :], depth + 2)
            return
        for l in lines:
            if l.startswith(pad) and not l.startswith(pad + " "):
                l = l[depth:]
                if l.startswith("infix"):
                    self.names.append(l.split()[-1])
                    self.kind = "short"
                    continue
                m = DECL.match(l)
                if m and not l.startswith("unfolding "):
                    self.names += [m[2]] if m[2] else m[3].split()
                    if m[1] or l.startswith(("abbrev", "unfoldable")):
                        self.kind = "short" if not re.match(r"[a-z ]*\bpub\b", l) and l.startswith("abbrev") else "definition"

    def text(self):
        return "\n".join(self.lines)

    def private(self):
        pad = " " * self.depth
        return not any(re.match(rf"{pad}[a-z ]*\bpub\b", l) for l in self.lines)

    def walk(self):
        if self.items is None:
            yield self
        for it in self.items or []:
            yield from it.walk()

    def show(self, wanted):
        """The text with the items that are wanted, or nothing."""
        if self.items is None:
            return "\n".join(self.comment + self.lines) if wanted(self) else ""
        inner = [t for t in (it.show(wanted) for it in self.items) if t]
        if not inner or not any(wanted(it) and it.kind != "short" for it in self.walk()):
            return ""
        return "\n".join(self.comment + self.lines) + "\n" + "\n\n".join(inner)


def parse(lines, depth):
    """The items of a file, or of a module, whose declarations stand at this depth."""
    chunks, now = [], []
    for l in [*lines, ""]:
        if l.strip():
            now.append(l)
        elif now:
            chunks.append(now)
            now = []
    pad, groups = " " * depth, []
    for c in chunks:
        first = next((l for l in c if not l.strip().startswith("--")), c[0])
        if groups and first.startswith(pad + " "):
            groups[-1] += ["", *c]
        else:
            groups.append(list(c))
    items, alone = [], []
    for g in groups:
        n = next((i for i, l in enumerate(g) if not l.strip().startswith("--")), len(g))
        if n < len(g):
            items.append(Item(alone + g[:n], g[n:], depth))
            alone = []
        else:  # a comment alone goes before what follows
            alone += [*g, ""]
    if alone and items:
        items[-1].lines += ["", *alone[:-1]]
    return items


def split_file(text):
    """The head comment, the lines of `use`, and the items."""
    lines = text.rstrip("\n").split("\n")
    head, uses, i = [], [], 0
    while i < len(lines) and (not lines[i].strip() or lines[i].startswith(("--", "use ", "pub use "))):
        if not lines[i].strip() and uses:
            break
        (uses if "use " in lines[i][:8] else head).append(lines[i])
        i += 1
    return [h for h in head if h.strip()], uses, parse(lines[i:], 0)


def uses_of(lines):
    out = {}
    for l in lines:
        m = ANY_USE.match(l)
        if m:
            out.setdefault(m[1], []).extend(n.strip() for n in m[2].split(",") if n.strip())
        else:
            out[l] = None
    return out


def use_lines(uses, text):
    """The lines of `use`, with the names that the text cites."""
    seen, out = tokens(text), []
    for module, names in uses.items():
        if names is None:
            out.append(module)
            continue
        bare = {n: n.split(" as ")[-1] for n in names}
        kept = [n for n in dict.fromkeys(names) if cites([bare[n]], seen)]
        if kept:
            out.append(f"use {module}.{{{', '.join(kept)}}}")
    return out


def params(lines):
    """The explicit parameters that a module's head takes."""
    head, out, depth, group = " ".join(l.strip() for l in lines), [], 0, ""
    for c in head:
        if c in "({":
            depth += 1
            if depth == 1:
                group, kind = "", c
                continue
        if c in ")}":
            depth -= 1
            if depth == 0 and kind == "(":
                out += group.split(" :")[0].split()
        group += c
    return out


def with_arguments(item, names, moved, inside):
    """The text of an item that moves, where names of its modules that stay take the modules' arguments."""
    lines = item.lines
    for head, here in inside:
        stay = [n for it in here for n in it.names if it.kind != "short" and not (set(it.names) & moved)]
        for n in stay:
            if re.match(r"[\w?']", n):
                args = " ".join(params(head))
                lines = [re.sub(rf"(?<![\w.'?])(?<!\. ){re.escape(n)}(?![\w'?]| =(?!=))", f"{n} {args}", l) if args else l for l in lines]
    item.lines = lines


def move(crate, file, to, moved, said):
    spec, proof = f"crates/{crate}/specs/{file}.antt", f"crates/{crate}/proofs/{to}.antt"
    head, uses, items = split_file(read(spec))
    every = [it for top in items for it in top.walk()]
    going = [it for it in every if set(it.names) & moved]
    if not going:
        return
    known = {n for it in every for n in it.names}
    for it in going:
        if not set(it.names) <= moved:
            sys.exit(f"{spec}: {it.names} stand together, and only some move")
    goes = lambda it: it in going
    texts = {id(it): tokens(it.text()) for it in every}
    # what moves cites: what is short goes along, what is private and stays becomes pub
    along = set()
    def closure(wanted):
        out, more = set(), set().union(*(texts[id(it)] for it in every if wanted(it))) if every else set()
        while True:
            new = [it for it in every if it.kind == "short" and id(it) not in out and cites(it.names, more)]
            if not new:
                return out
            for it in new:
                out.add(id(it))
                more |= texts[id(it)]
    along = closure(goes)
    left = closure(lambda it: not goes(it) and it.kind != "short")
    heads = []
    def arguments(its, above):
        for it in its:
            if it.items is not None:
                with_arguments(it, known, moved, above)
                arguments(it.items, above + [(it.lines, [x for x in it.items if x.items is None])])
            elif goes(it):
                with_arguments(it, known, moved, above)
    cited = set().union(*(texts[id(it)] for it in going))
    for it in every:
        if not goes(it) and it.kind != "short" and it.private() and cites(it.names, cited):
            it.lines = [re.sub(r"^(\s*)(abbrev |unfoldable |)", r"\1\2pub ", l) if DECL.match(l.strip()) and i == 0 else l for i, l in enumerate(it.lines)]
            said.append(f"{crate}: specs/{file}: {' '.join(it.names)} becomes pub")
    opened = {n for it in going for l in it.lines if l.strip().startswith("unfolding ") for n in l.split()[1:]}
    for it in every:
        if not goes(it) and set(it.names) & opened and not re.match(r"\s*(abbrev|unfoldable)\b", it.lines[0]):
            it.lines[0] = re.sub(r"^(\s*)", r"\1unfoldable ", it.lines[0])
            said.append(f"{crate}: specs/{file}: {' '.join(it.names)} becomes unfoldable")
    shown = lambda wanted: "\n\n".join(t for t in (it.show(wanted) for it in items) if t)
    old = shown(lambda it: not goes(it) and (it.kind != "short" or id(it) in left))
    arguments(items, [])
    new = shown(lambda it: goes(it) or it.kind == "short" and id(it) in along)
    all_uses = uses_of(uses)
    own = [n for it in every if not goes(it) and it.kind != "short" for n in it.names]
    # fields and constructors are names of their own
    own += [m[1] for it in every if not goes(it) and re.search(r"\bdata\b", it.lines[0]) for l in it.lines[1:] for m in [re.match(r"\s+([^\s:]+) :", l)] if m]
    mine = {**all_uses, f"Rattle.{crate}.specs.{file}": own}
    if os.path.exists(proof):
        h, u, i = split_file(read(proof))
        body = "\n\n".join(it.show(lambda x: True) for it in i) + "\n\n" + new
        for k, v in uses_of(u).items():
            mine[k] = (mine.get(k) or []) + (v or []) if v is not None else None
    else:
        h, body = [f"-- Theorems on what specs/{file}.antt defines."] if old else head, new
    write(proof, "\n".join(h + use_lines(mine, body)) + "\n\n" + body + "\n")
    if old:
        write(spec, "\n".join(head + use_lines(all_uses, old)) + "\n\n" + old + "\n")
    else:
        os.remove(spec)
        write(f"crates/{crate}/specs/Lib.antt", read(f"crates/{crate}/specs/Lib.antt").replace(f"pub mod {file}\n", ""))
    lib = f"crates/{crate}/proofs/Lib.antt"
    text = read(lib) if os.path.exists(lib) else ""
    if f"mod {to}\n" not in text:
        write(lib, text + f"pub mod {to}\n")
    said.append(f"{crate}: {len(going)} declarations of specs/{file}.antt to proofs/{to}.antt")


def cite(path, moves):
    """Rewrites what a file imports."""
    text = read(path)

    def turn(m):
        lead, module, crate, part, file, names, end = m.groups()
        to = moves.get((crate, file), {})
        names = [n.strip() for n in names.split(",") if n.strip()]
        places = {n: to.get(n.split(" as ")[0], file) if part == "proofs" else to.get(n.split(" as ")[0]) for n in names}
        if all(p in (None, file if part == "proofs" else None) for p in places.values()):
            return m[0]
        out = [f"{lead}{module}.{{{', '.join(n for n in names if places[n] is None)}}}{end}"] if None in places.values() else []
        for p in dict.fromkeys(p for p in places.values() if p):
            out.append(f"{lead}Rattle.{crate}.proofs.{p}.{{{', '.join(n for n in names if places[n] == p)}}}{end}")
        return "\n".join(out)

    new = USE.sub(turn, text)
    new = re.sub(r"Rattle\.(\w+)\.specs\.(\w+)\.([^\s(){}\[\],;.]+)", lambda m: f"Rattle.{m[1]}.proofs.{moves[m[1], m[2]][m[3]]}.{m[3]}" if m[3] in moves.get((m[1], m[2]), ()) else m[0], new)
    # one line for each module
    lines, at, out = new.split("\n"), {}, []
    for l in lines:
        m = USE.match(l)
        if m and m[4] == "proofs" and any(c == m[3] and m[5] in to.values() for (c, _), to in moves.items()) and not path.endswith(f"crates/{m[3]}/proofs/{m[5]}.antt"):
            key = (m[1], m[2])
            if key in at:
                o = USE.match(out[at[key]])
                both = list(dict.fromkeys([n.strip() for n in o[6].split(",")] + [n.strip() for n in m[6].split(",")]))
                out[at[key]] = f"{m[1]}{m[2]}.{{{', '.join(both)}}}{m[7]}"
                continue
            at[key] = len(out)
        out.append(l)
    new = "\n".join(out)
    if new != text:
        write(path, new)
        return True
    return False


def main():
    moves, said = {}, []
    for line in read("tools/theorems.txt").split("\n"):
        line = line.split("--")[0].strip()
        if line:
            where, names = line.split(":", 1)
            crate, file, *to = where.split()
            moves.setdefault((crate, file), {}).update({n: (to or [file])[0] for n in names.split()})
    for (crate, file), names in moves.items():
        if os.path.exists(f"crates/{crate}/specs/{file}.antt"):
            for to in dict.fromkeys(names.values()):
                move(crate, file, to, {n for n in names if names[n] == to}, said)
    paths = [p for p in glob.glob("crates/*/*/**/*", recursive=True) if p.endswith((".antt", ".rt")) and p.split("/")[2] in ("src", "specs", "proofs", "tests")]
    changed = [p for p in paths if cite(p, moves)]
    print("\n".join(said + [f"{len(changed)} files cite them anew"]))
    for path in paths:  # a crate's specs/ cannot cite its own proofs/
        crate = path.split("/")[1]
        if path.split("/")[2] == "specs" and f"Rattle.{crate}.proofs." in read(path):
            print(f"look: {path} cites proofs/ of its own crate")


if __name__ == "__main__":
    main()
