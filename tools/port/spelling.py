#!/usr/bin/env python3
"""Brings the repository's own definitions and lemmas to the spelling of today's Rattle: words in snake case, types in camel case.

usage: tools/port/spelling.py [ROOT]     after port.py, once; files below ROOT/crates are rewritten in place

Names that begin with a digit or a sign, as 1e-8 and -1·0, are numbers and stay. Names from the toolchain's library stay, as do functions of src/, strings and
file names. It stops where two names of one file would fall together, and writes nothing then.
"""

import glob
import os
import re
import sys

# one word of antt, without dots
WORD = re.compile(r'"[^"]*"|[^\s(){}\[\];,."⌜⌝`]+')
ROOTS = {"lib", "mathlib", "native", "Prim", "borrow", "denote", "mir"}
USE = re.compile(r"^(ghost )?use ([^\s{;]+?)(?:\.\{([^}]*)\})?(?: as ([^\s;]+))?;?$", re.M)
DASH = re.compile(r"(?<=[\w'²±])-(?=\w)")
# the old name of a library word, and words in comments that port.py took for names
# a lemma that would have the name of its function gets _lem
LEMMA = {"in-float": "in_float_lem"}
LIBRARY = {"getD": "get_or", "ofBits": "of_bits", "toBits": "to_bits"}
PROSE = {"little_endian": "little-endian", "a_z": "a-z"}
# a declaration at the start of a line: a type gets camel case
TYPE = re.compile(r"^\s*(?:pub |abbrev |unfoldable )*(?:data|record) ([^\s:(){}]+)|^\s*(?:pub |abbrev |unfoldable )*([^\s:(){}]+)(?: \([^:]*\))* : (?:.*→ )?Type 0$", re.M)


def camel(name):
    return "".join(p[:1].upper() + p[1:] for p in re.split(r"[-_]", name))


def snake(name):
    for old, new in LIBRARY.items():
        name = re.sub(r"(?<![A-Za-z])" + old + r"(?![a-z])", new, name)
    name = DASH.sub("_", name)
    if name.isupper() or name[:1].isupper():
        return name
    return re.sub(r"(?<=[a-z])([A-Z])(?=[a-z])", lambda m: "_" + m.group(1).lower(), name)


def is_own(path, crates):
    m = re.match(r"Rattle\.(\w+)\.", path)
    return bool(m) and m.group(1) in crates


def comment_at(line, mark):
    m = re.search(r"(^|\s)" + mark + r"(\s|$|-)", line)
    return m.start(0) + len(m.group(1)) if m else len(line)


class File:
    def __init__(self, path, crates):
        self.path = path
        with open(path, encoding="utf-8") as f:
            self.text = f.read()
        self.external, self.aliases, self.own = set(), set(), set()
        for m in USE.finditer(self.text):
            _, module, items, alias = m.groups()
            names = [n for i in (items or "").split(",") for n in i.strip().split(" as ") if n]
            if is_own(module, crates):
                self.own.update(names)
            else:
                self.external.update(names)
                if alias:
                    self.aliases.add(alias)
                elif not items:
                    self.aliases.add(module.split(".")[-1])


def new_name(word, file, types):
    if word in file.external or not word or word[0].isdigit() or word[0] in "-+◌\"":
        return word
    if word in LEMMA:
        return LEMMA[word]
    if word in types:
        return camel(word)
    if not (DASH.search(word) or any(k in word for k in LIBRARY) or re.search(r"^[a-z]+[a-z][A-Z][a-z]", word)):
        return word
    return snake(word)


def dotted(text, file, types, seen):
    """Renames in a stretch of antt, but for what follows the alias of a module of the library."""
    out, last, after = [], 0, False
    for m in WORD.finditer(text):
        gap = text[last : m.start()]
        chained = gap == "."
        word = m.group(0)
        name = word if chained and after else new_name(word, file, types)
        after = (chained and after) or (not chained and (word in file.aliases or word in ROOTS))
        seen.setdefault(word, set()).add(name)
        out += [gap, name]
        last = m.end()
    return "".join(out) + text[last:]


def remark(text, file, types, names):
    """A comment: names in backticks, and words that port.py turned by mistake."""
    for old, new in PROSE.items():
        text = re.sub(r"(?<!\w)" + old + r"(?!\w)", new, text)
    return re.sub(r"`([^`]+)`", lambda m: "`" + " ".join(new_name(w, file, types) if w in names else w for w in m.group(1).split(" ")) + "`", text)


def use_line(line, file, types, crates, seen):
    m = USE.match(line)
    if not m or not is_own(m.group(2), crates):
        return line
    start, end = m.span(2)
    return line[:end] + dotted(line[end:], file, types, seen)


def antt(file, types, names, crates):
    seen, out = {}, []
    for line in file.text.split("\n"):
        at = comment_at(line, "--")
        code, note = line[:at], line[at:]
        if code.startswith("use "):
            code = use_line(code.rstrip(), file, types, crates, seen) + code[len(code.rstrip()) :]
        else:
            code = dotted(code, file, types, seen)
        out.append(code + remark(note, file, types, names))
    return "\n".join(out), seen


def rust(file, types, names, crates):
    """The `ghost use` items, clauses and ghost fields of a source file."""
    seen, out, depth, clause = {}, [], 0, False
    for line in file.text.split("\n"):
        at = comment_at(line, "//")
        code, note = line[:at], line[at:]
        if code.startswith("ghost use "):
            code = use_line(code, file, types, crates, seen)
        elif clause or re.match(r"\s*(requires|ensures|ghost)\b", code):
            code = dotted(code, file, types, seen)
            depth += code.count("{") - code.count("}")
            clause = depth > 0
        out.append(code + remark(note, file, types, names))
    return "\n".join(out), seen


def main(root):
    os.chdir(root)
    crates = sorted(os.path.basename(c) for c in glob.glob("crates/*"))
    paths = sorted(glob.glob("crates/*/specs/**/*.antt", recursive=True) + glob.glob("crates/*/proofs/**/*.antt", recursive=True) + glob.glob("crates/*/src/**/*.rt", recursive=True))
    files = [File(p, crates) for p in paths]
    types, names = set(), set()
    for f in files:
        if f.path.endswith(".antt"):
            for a, b in TYPE.findall(f.text):
                n = a or b
                if re.search(r"[-_]", n) and n[:1].isupper() and not n.isupper():
                    types.add(n)
            names.update(m.group(1) for m in re.finditer(r"^\s*(?:pub |abbrev |unfoldable |data |record )*([^\s:(){}]+)(?: .*)? : ", f.text, re.M))
    done, bad = [], 0
    for f in files:
        text, seen = (antt if f.path.endswith(".antt") else rust)(f, types, names, crates)
        taken = {}
        for word, news in sorted(seen.items()):
            for new in news:
                if taken.setdefault(new, word) != word:
                    print(f"{f.path}: {taken[new]} and {word} would both be {new}")
                    bad += not f.path.endswith("/Proof.antt")
        done.append((f.path, f.text, text))
    print("types: " + " ".join(sorted(types)))
    if bad:
        print(f"{bad} names fall together: nothing was written")
        return 1
    for path, old, new in done:
        if old != new:
            with open(path, "w", encoding="utf-8") as out:
                out.write(new)
    print(f"{sum(old != new for _, old, new in done)} of {len(done)} files written")
    return 0


if __name__ == "__main__":
    raise SystemExit(main(sys.argv[1] if len(sys.argv) > 1 else "."))
