#!/usr/bin/env python3
"""Brings the repository's own definitions and lemmas to one spelling: words in snake case, as `row_of`; constants as the code has them,
as `OP_WIDTH`; types, facts and modules as they are. Run once, at the top, after the kit's own scripts.

usage: spelling.py [--check] [--table]

Where a lemma would have a definition's name it gets `_lem`, and a place of a proof file `_place`. It turns a name in camel case (`rowOf`), with dashes (`row-of`) or of capitals with dashes (`OP-WIDTH`) wherever the repository's texts
declare it or bind it. What a file imports from the kit stays, and so does what the checker makes (behind `tie.`, `goal.` and the like), but
for fields that the repository declares. Functions of src/, strings, inputs and outputs keep their names. In src/ and in the wrong programs
only declared names turn; in pages only those that stand in code spans. Names that would fall together are listed, and then nothing is
written. --check writes nothing; --table prints the old and new names.
"""

import collections
import glob
import os
import re
import sys

TOKEN = re.compile(r'[^\s(){}.;,@"«»`]+')
CAMEL = re.compile(r"^[a-z][a-z0-9]*(?:[A-Z][a-z0-9]*)+[\w']*$")
DASHED = re.compile(r"^[A-Za-z][\w']*(?:-[\w']+)+$")
CAPITALS = re.compile(r"^[A-Z][A-Z0-9]*(?:-[A-Z0-9]+)+$")
DECLARED = re.compile(r"^ *(?:(?:abbrev|unfoldable|pub|record|data) )*([^\s(){}.;,@\"«»:]+)(?: \{[^{}\n]*\}| \([^()\n]*\))* :(?= |$)", re.M)
FIELD = re.compile(r"[({;] *(\S+)(?= [:=] )")
USE = re.compile(r"\buse ([^\s;{]+)(?:\{([^}]*)\})?")
MADE = re.compile(r"^(Need|After|At|In|Else|Then|Joined|Start|Map|Put|Made|IsPlace|Read)-")
# What the checker makes of the code: found by its own names, in proof files.
HEADS = ("tie", "goal", "lts")
# Lemmas and fields that the kit's scripts gave the name that a definition gets here.
GIVEN = "calls_back cells_at held_bytes is_below last_byte no_call no_wrap ops_back past_index read_ops row_before takes_first too_many".split()

# Parameters and places of one file that would meet a definition or a field there.
LOCAL = {"tableRoom": "room_table", "opsRoom": "room_ops", "muComWide": "wide_mu_com", "dst-res": "res_cells"}
# Fields of the code's structs that stand beside a definition of the same name.
FIELDS = ("delta_less_one", "is_read")


def respelt(name):
    """The name in the repository's spelling, or itself."""
    if CAPITALS.match(name):
        return name.replace("-", "_")
    if MADE.match(name):
        return name
    if DASHED.match(name):
        return "_".join(respelt(part) for part in name.split("-"))
    if CAMEL.match(name):
        return re.sub(r"(?<=[a-z0-9])(?=[A-Z])|(?<=[A-Z])(?=[A-Z][a-z])", "_", name).lower()
    return name


def texts(pattern):
    return sorted(p for p in glob.glob(pattern, recursive=True) if "/out/" not in p)


def read(path):
    with open(path, encoding="utf-8") as f:
        return f.read()


def own_crates():
    return {os.path.basename(p) for p in glob.glob("crates/*")}


def imported(text, crates):
    """The names that a file has from the kit."""
    found = set()
    for path, names in USE.findall(text):
        parts = path.rstrip(".").split(".")
        own = parts[0] == "Rattle" and len(parts) > 1 and parts[1] in crates
        if not own:
            for item in names.split(","):
                words = item.split(" as ")
                found.add(words[0].strip())
    return found


def pieces(text, comment):
    """The text cut into code, comments and strings: pairs of a kind and the piece."""
    mark = re.compile(r'"(?:[^"\\\n]|\\.)*"|(?<![^\s(){};,])' + comment + r"[^\n]*")
    at = 0
    for m in mark.finditer(text):
        yield "code", text[at : m.start()]
        yield ("comment" if m[0].startswith(comment.replace("\\", "")) else "string"), m[0]
        at = m.end()
    yield "code", text[at:]


def spellings(antt):
    """The table of the declared names: a definition has its name first, and what would meet it gets an ending."""
    kinds = collections.defaultdict(set)
    for path, text in antt.items():
        for m in DECLARED.finditer(text):
            kinds[m[1]].add("place" if path.endswith("/Proof.antt") else "lem")
    groups = collections.defaultdict(set)
    for name in kinds:
        groups[respelt(name)].add(name)
    table = {}
    for new, olds in groups.items():
        definition = sorted(olds, key=lambda n: ("-" in n and not CAPITALS.match(n), not CAMEL.match(n), n))[0]
        for name in olds:
            if name == definition or len(olds) == 1:
                table[name] = new
            elif "_" not in name or name in GIVEN:
                table[name] = new + ("_place" if kinds[name] == {"place"} else "_lem")
    return {old: new for old, new in table.items() if old != new}


class Antt:
    """A file of definitions or proofs: every name that it declares or binds turns."""

    def __init__(self, path, text, table, crates, functions):
        self.text, self.table, self.functions = text, table, functions
        self.is_proof = path.endswith("/Proof.antt")
        self.kit = imported(text, crates)
        self.asked = {}
        self.aliases = set(re.findall(r"\buse [^\s;{]+ as (\w+)", text))

    def new(self, name, before, after):
        if after.startswith(".") and self.in_path(before):
            return name
        head = re.search(r"([^\s(){}.;,@\"«»`]+|\))\.$", before)
        if head and head[1] in HEADS:
            return name
        if head and self.in_path(before):
            return name
        if head and self.is_proof and name.replace("-", "_") in self.functions:
            return name.replace("-", "_")
        if name in self.kit and name not in self.table:
            return name
        if name in self.table:
            return self.table[name] if name not in self.kit or "-" not in name else name
        if head or not self.bound(name):
            return name
        return LOCAL.get(name) or respelt(name)

    def in_path(self, before):
        """Whether the name is a part of a module's path, in a line `use`."""
        return re.search(r"\buse [^\s{]*$", before) is not None

    def bound(self, name):
        """Whether the file binds the name itself: by let, lambda, a parameter or a clause."""
        if name not in self.asked:
            it = re.escape(name)
            shape = rf"(?:^|[\s(])(?:{it})(?: [^\s(){{}}.;,]+)* (?::|=) |λ [^.\n]*(?<![^\s(]){it}(?![^\s.:)])|[({{](?:[^\s(){{}}:]+ )*{it}(?: [^\s(){{}}:]+)* : "
            self.asked[name] = respelt(name) != name and re.search(shape, self.text, re.M) is not None
        return self.asked[name]

    def turned(self):
        out = []
        for kind, piece in pieces(self.text, "--"):
            if kind == "code":
                out.append(turn(piece, self.new))
            elif kind == "comment":
                out.append(spans(piece, self.table))
            else:
                out.append(piece)
        return "".join(out)


def turn(piece, new):
    out, at = [], 0
    for m in TOKEN.finditer(piece):
        out += [piece[at : m.start()], new(m[0], piece[max(0, m.start() - 200) : m.start()], piece[m.end() : m.end() + 1])]
        at = m.end()
    return "".join(out + [piece[at:]])


def by(table):
    return lambda name, before, after: table.get(name, name) if "_" not in name else name


def spans(text, table):
    """The text with the declared names in its code spans turned."""
    return re.sub(r"`[^`\n]*`", lambda m: "`" + turn(m[0][1:-1], by(table)) + "`", text)


def code_turned(text, table):
    """A file of src/: no name of a function has capitals or dashes, so only what clauses cite turns."""
    out = []
    for kind, piece in pieces(text, "//"):
        if kind == "code":
            out.append(turn(piece, by(table)))
        elif kind == "comment":
            out.append(spans(piece, table))
        else:
            out.append(piece)
    return "".join(out)


def edit_turned(text, table):
    lines = []
    for line in text.split("\n"):
        if line.startswith(("old:", "new:")):
            lines.append(turn(line, by(table)))
        elif line.startswith("file:"):
            lines.append(line)
        else:
            lines.append(spans(line, table))
    return "\n".join(lines)


def main(argv):
    crates = own_crates()
    antt = {p: read(p) for p in texts("crates/*/specs/**/*.antt") + texts("crates/*/proofs/**/*.antt")}
    rust = {p: read(p) for p in texts("crates/*/src/**/*.rt")}
    edits = {p: read(p) for p in texts("crates/*/must-fail/*.edit")}
    pages = {p: read(p) for p in texts("docs/*.md") + ["README.md"]}
    functions = {f for text in rust.values() for f in re.findall(r"\bfn (\w+)", text)}
    table = spellings(antt)
    result = {p: Antt(p, t, table, crates, functions).turned() for p, t in antt.items()}
    result |= {p: code_turned(t, table) for p, t in rust.items()}
    result |= {p: edit_turned(t, table) for p, t in edits.items()}
    result |= {p: spans(t, table) for p, t in pages.items()}
    met = fallen_together(antt, result)
    for path, name, olds in met:
        print(f"together: {path}: {', '.join(sorted(olds))} would be {name}")
    if "--table" in argv:
        print("\n".join(f"{old}\t{new}" for old, new in sorted(table.items())))
    if met:
        return 1
    changed = 0
    for path, text in result.items():
        if text != read(path):
            changed += 1
            if "--check" not in argv:
                with open(path, "w", encoding="utf-8") as f:
                    f.write(text)
    print(f"spelling: {len(table)} declared names, {changed} files")
    return 0


def words_of(text):
    """The names of a text in order, without the paths of its imports."""
    code = "".join(p if k == "code" else " " for k, p in pieces(text, "--"))
    return TOKEN.findall(re.sub(r"\buse [^\s{]+", "use", code))


def free(text):
    """For each of these names whether it stands behind no dot."""
    code = "".join(p if k == "code" else " " for k, p in pieces(text, "--"))
    code = re.sub(r"\buse [^\s{]+", "use", code)
    return [code[max(0, m.start() - 1) : m.start()] != "." for m in TOKEN.finditer(code)]


def fallen_together(old, new):
    """Files in which two names of before are one now."""
    met = []
    for path, text in old.items():
        now = collections.defaultdict(set)
        for a, b, is_free in zip(words_of(text), words_of(new[path]), free(text), strict=True):
            if (is_free or not path.endswith("/Proof.antt")) and a not in FIELDS:
                now[b].add(a)
        met += [(path, b, names) for b, names in now.items() if len(names) > 1]
    return met


if __name__ == "__main__":
    raise SystemExit(main(sys.argv[1:]))
