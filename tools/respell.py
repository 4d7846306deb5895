#!/usr/bin/env python3
"""Brings this repository's own definitions, lemmas and theorems to the spelling of today's Rattle: words in snake case, facts and types in camel case.

    tools/respell.py [--names]      at the top, once, right after the kit's port.py; --names only prints the table, old name and new

What turns: the names that specs/ and proofs/ declare, in every .antt file, in the clauses and ghost items of every .rt file, in the texts of
must-fail/*.edit and of tests/pinned.list, and in the pages that cite them. Functions of src/, strings, inputs and outputs stay.
A lemma that would get its definition's name gets `_lem` behind it. A name that a file imports from the library stays in that file.
"""
import re
import sys
from collections import defaultdict
from pathlib import Path

ROOT = Path(__file__).resolve().parent.parent
WORD = r'[^\s(){}.;,@"«»]+'
DECLARED = re.compile(rf"\s*((?:(?:abbrev|unfoldable|pub|opaque)\s+)*)({WORD})(?:\s*\{{[^{{}}]*\}})*\s*:\s+(.*)$")
RULESET = re.compile(rf"\s*(?:pub\s+)?ruleset\s+({WORD})")
USE = re.compile(r"^use ([^\s{]+?)(?:\.\{([^}]*)\})?(?: as \S+)?$", re.M)
TYPE = re.compile(r"(?:^|→ |: )Type 0$")
OWN = {p.name for p in (ROOT / "crates").iterdir() if p.is_dir()}
# laws that port.py had already given the name of the definition that they speak of: (file below crates/, name)
MET = {
    ("model/specs/Theorems.antt", "number_at"), ("model/specs/Theorems.antt", "byte_at"),
    ("words/proofs/Pack.antt", "byte_at"), ("words/proofs/Colours.antt", "byte_at"),
}  # fmt: skip
FIELDS_MET = {"number_at", "byte_at"}  # as fields, behind a dot or before `=` in a record
LAWS = {"one_line", "read_done", "write_done", "no_tile"}  # laws that port.py spelled so, while the definition was still in camel case


def snake(name):
    name = name.replace("getD", "get_or")
    words = [w if re.fullmatch("[0-9A-F]{4}", w) else re.sub(r"(?<=[a-z0-9])([A-Z])", r"_\1", w) for w in name.split("-")]
    return "_".join(words).lower()


def lemma_files():
    for path in sorted((ROOT / "crates").glob("*/specs/**/*.antt")) + sorted((ROOT / "crates").glob("*/proofs/*.antt")):
        yield path


def table():
    """Old name to new, of all names that specs/ and the lemma files declare."""
    names, facts, in_specs = set(), set(), set()
    for path in lemma_files():
        for line in path.read_text(encoding="utf-8").splitlines():
            if line.lstrip().startswith("--"):
                continue
            found, ruleset = DECLARED.match(line), RULESET.match(line)
            if found:
                names.add(found[2])
                if TYPE.search(found[3]):
                    facts.add(found[2])
            if ruleset:
                names.add(ruleset[1])
    for path in list((ROOT / "crates").glob("*/src/*.rt")) + list((ROOT / "crates").glob("*/**/*.antt")):
        names |= set(re.findall(r" as ([a-z][a-z0-9]*[A-Z]\w*)", path.read_text(encoding="utf-8")))
    turned = {}
    for name in names:
        if not re.search(r"[a-zA-Z]", name) or not re.fullmatch(r"[\w\-'₀₁₂₃]+", name):
            continue
        if name in facts:
            turned[name] = name[0].upper() + name[1:]
        elif name[0].isupper() and "-" not in name:
            turned[name] = name
        else:
            turned[name] = snake(name)
    by_new = defaultdict(set)
    for old, new in turned.items():
        by_new[new].add(old)
    for new, olds in by_new.items():
        if len(olds) > 1:
            laws = {o for o in olds if "-" in o or o in LAWS}
            if len(olds) - len(laws) > 1:
                sys.exit(f"tools/respell.py: {sorted(olds)} fall together")
            for law in laws:
                turned[law] = new + "_lem"
    return {old: new for old, new in turned.items() if old != new}


def stays(text):
    """What a file imports from the library."""
    found = set()
    for use in USE.finditer(text):
        parts = use[1].split(".")
        if parts[0] == "Rattle" and len(parts) > 1 and parts[1] in OWN:
            continue
        for item in (use[2] or "").split(","):
            words = item.split()
            if words:
                found.add(words[-1])
    return found


def turner(names):
    alternatives = "|".join(sorted(map(re.escape, names), key=len, reverse=True))
    return re.compile(rf'(?<![^\s(){{}}.;,@"«»`]){"(?:" + alternatives + ")"}(?![^\s(){{}}.;,@"«»`])')


def turn_antt(text, names, word, where):
    kept = stays(text)
    file = str(where.relative_to(ROOT / "crates")) if where else ""
    met = {name for path, name in MET if path == file}

    def one(found):
        name = found[0]
        return name if name in kept else names[name]

    def line(it):
        at = it.find("--")
        while at > 0 and it[at - 1] not in " \t":
            at = it.find("--", at + 2)
        code, comment = (it, "") if at < 0 else (it[:at], it[at:])
        for name in met:
            code = re.sub(rf"(?<![\w\-'.]){name}(?![\w\-'])", name + "_lem", code)
        if not met:
            for name in FIELDS_MET:
                code = re.sub(rf"\.{name}(?![\w\-'])|^(\s+){name}(?= = )", lambda f: f[0] + "_lem", code)
        comment = word.sub(lambda f: names[f[0]] if re.search("[a-z0-9][A-Z]", f[0]) else f[0], comment)
        return word.sub(one, code) + comment

    return "\n".join(map(line, text.split("\n")))


def turn_rt(text, names, word):
    """camelCase stands for ghost names alone in Rust code; a dash only in a ghost item or a clause."""
    text = re.sub(r"ghost use [^;]*;", lambda f: word.sub(lambda g: names[g[0]], f[0]), text)
    camel = {n for n in names if re.search("[a-z0-9][A-Z]", n)}
    return turner(camel).sub(lambda f: names[f[0]], text)


ATOM = re.compile(r"\\n|\s+|[();,{}]|(?:(?!\\n)[^\s();,{}])+")
NAME = re.compile(r"[^\W\d][\w\-']*(?:\.\w+)*$")
FIELD = re.compile(r"\.[a-z]\w*$")


def tight(text):
    """Projections as they are written today: `u .v` is `u.v`, `f x .v` is `(f x).v`, and `(u .v)` needs no parentheses."""
    parts, at = [p for p in ATOM.findall(text)], 0

    def spine(out):
        """Where the application at the end of out begins."""
        i = len(out)
        while i > 0 and (out[i - 1].isspace() or out[i - 1].startswith("(") and out[i - 1].endswith((")",)) or NAME.match(out[i - 1].lstrip("(")) or re.match(r"\(.*\)[.\w]*$|\d+$", out[i - 1], re.S)):
            if out[i - 1] == "in" or out[i - 1] == "let":
                break
            i -= 1
        while i < len(out) and out[i].isspace():
            i += 1
        return i

    def level(closing):
        nonlocal at
        out = []
        while at < len(parts):
            part = parts[at]
            at += 1
            if part == "(":
                inner, closed = level(True)
                if not closed:
                    out += ["("] + inner
                elif len(inner) == 1 and (not out or out[-1].isspace() or out[-1] == "(") and re.match(r"[^\W\d][\w\-']*(\.\w+)+$|\(.*\)(\.\w+)+$", inner[0], re.S):
                    out.append(inner[0])
                else:
                    out.append("(" + "".join(inner) + ")")
            elif part == ")":
                if closing:
                    return out, True
                out.append(part)
            elif FIELD.match(part) and out and out[-1].isspace():
                begin = spine(out)
                head = out[begin:-1]
                if len(head) > 1:
                    head = ["(" + "".join(head) + ")"]
                out = out[:begin] + ["".join(head) + part]
            else:
                out.append(part)
        return out, False

    return "".join(level(False)[0])


# What port.py does to sources, done to the texts of edits, which it leaves.
def today(text, rust):
    text = text.replace("′", "'").replace("getD", "get_or")
    text = re.sub(r"(?<![^\s{,])_([^\s\w]{1,2})_(?![^\s},])", r"◌\1◌", text)
    text = re.sub(r"Rattle·(\w+)·(specs|proofs)\.\2\.", r"Rattle.\1.\2.", text)
    text = re.sub(r"Rattle·(\w+)\.", r"Rattle.\1.", text)
    if rust:
        text = re.sub(r"λ r\. ⌜ (.*?) ⌝", lambda f: re.sub(r"(?<![\w.])r(?![\w])", "result", f[1]), text)
        text = re.sub(r"⌜ (.*?) ⌝", r"\1", text)
    if not rust or " ." in text:
        text = tight(text)
    return text


def turn_edit(text, names, word, rust):
    def line(it):
        key, mark, value = it.partition(": ")
        if key not in ("old", "new"):
            return it
        value = today(value.replace("\\n", "\n"), rust)
        if rust:
            value = turner({n for n in names if re.search("[a-z0-9][A-Z]", n)}).sub(lambda f: names[f[0]], value)
        else:
            value = word.sub(lambda f: names[f[0]], value)
        return key + mark + value.replace("\n", "\\n")

    return "\n".join(map(line, text.split("\n")))


def turn_page(text, names):
    """The code spans of a page, but for paths and commands."""
    one = re.compile(r"(?<![\w\-'/])[\w\-']+(?![\w\-'/])")
    names = {n: new for n, new in names.items() if n not in LAWS}
    return re.sub(r"`[^`\n]+`", lambda f: one.sub(lambda g: names.get(g[0], g[0]), f[0]), text)


def main():
    names = table()
    if "--names" in sys.argv:
        print("\n".join(f"{old}\t{new}" for old, new in sorted(names.items())))
        return
    word = turner(names)
    # an edit still has the names of before port.py
    landed = dict(names)
    for path in list((ROOT / "crates").glob("*/must-fail/*.edit")) + [ROOT / "tests/pinned.list"]:
        for name in re.findall(r"[\w\-']+", path.read_text(encoding="utf-8")):
            new = snake(name)
            if name not in landed and new != name and not name[0].isupper() and (new in names.values() or new in names or new in DECLARED_NOW):
                landed[name] = new
    edit_word = turner(landed)
    turned = []
    for path in sorted((ROOT / "crates").rglob("*")):
        if "/out/" in str(path) or not path.is_file():
            continue
        text = path.read_text(encoding="utf-8") if path.suffix in (".antt", ".rt", ".edit") else None
        if path.suffix == ".antt":
            turned.append((path, turn_antt(text, names, word, path)))
        elif path.suffix == ".rt":
            turned.append((path, turn_rt(text, names, word)))
        elif path.suffix == ".edit":
            turned.append((path, turn_edit(text, landed, edit_word, "file: src/" in text)))
    pinned = ROOT / "tests/pinned.list"
    blocks = pinned.read_text(encoding="utf-8").split("\n\n")
    turned.append((pinned, "\n\n".join(turn_edit(b, landed, edit_word, "/src/" in b) for b in blocks)))
    for path in [ROOT / "README.md", *sorted(ROOT.glob("docs/**/*.md")), ROOT / "tests/README.md", ROOT / "bench/README.md", ROOT / "examples/README.md", ROOT / "tools/README.md"]:
        turned.append((path, turn_page(path.read_text(encoding="utf-8"), landed)))
    for path, new in turned:
        if new != path.read_text(encoding="utf-8"):
            path.write_text(new, encoding="utf-8")


DECLARED_NOW = set()
for _path in lemma_files():
    for _line in _path.read_text(encoding="utf-8").splitlines():
        _found = DECLARED.match(_line)
        if _found:
            DECLARED_NOW.add(_found[2])

if __name__ == "__main__":
    main()
