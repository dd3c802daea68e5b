#!/usr/bin/env python3
"""Counts places in crates/*/src that an older form of the language explains: places.py [TREE] [POINT]. See docs/DESIGN-PASS.md."""
import glob, os, re, sys
from collections import defaultdict

tree = sys.argv[1] if len(sys.argv) > 1 else "."
only = sys.argv[2] if len(sys.argv) > 2 else None
files = sorted(glob.glob(os.path.join(tree, "crates/*/src/*.rt")))


def strip(text):
    return re.sub(r"//[^\n]*", "", text)


class Function:
    def __init__(self, where, name, parameters, result, clauses, body):
        self.where, self.name, self.parameters, self.result, self.clauses, self.body = where, name, parameters, result, clauses, body

    def label(self):
        return f"{self.where}:{self.name}"


def block_end(text, start):
    depth = 0
    for i in range(start, len(text)):
        if text[i] == "{":
            depth += 1
        elif text[i] == "}":
            depth -= 1
            if depth == 0:
                return i + 1
    return len(text)


def split_commas(text):
    parts, depth, part = [], 0, ""
    for ch in text:
        if ch in "([{<":
            depth += 1
        elif ch in ")]}>":
            depth -= 1
        if ch == "," and depth == 0:
            parts.append(part.strip())
            part = ""
        else:
            part += ch
    if part.strip():
        parts.append(part.strip())
    return parts


functions, texts = [], {}
for path in files:
    text = strip(open(path).read())
    where = os.path.relpath(path, os.path.join(tree, "crates"))
    texts[where] = text
    for m in re.finditer(r"\bfn (\w+)(<[^(]*>)?\(", text):
        depth, i = 1, m.end()
        while depth:
            depth += {"(": 1, ")": -1}.get(text[i], 0)
            i += 1
        parameters = split_commas(text[m.end():i - 1].replace("\n", " "))
        rest = text[i:]
        arrow = re.match(r"\s*->\s*([^\n{]+?)(?=\s*(\n|\{))", rest)
        result = arrow.group(1) if arrow else ""
        j = i + (arrow.end() if arrow else 0)
        clauses = []
        while True:
            c = re.match(r"\s*(requires|ensures)\s*(\w+)?\s*\{", text[j:])
            if not c:
                break
            end = block_end(text, j + c.end() - 1)
            clauses.append((c.group(1), text[j + c.end():end - 1].strip()))
            j = end
        b = re.match(r"\s*\{", text[j:])
        if not b:
            continue
        end = block_end(text, j + b.end() - 1)
        functions.append(Function(where, m.group(1), parameters, result, clauses, text[j + b.end():end - 1]))


def say(point, title, places):
    if only and point != only:
        return
    print(f"{point} {title}: {len(places)}")
    for p in places:
        print(f"    {p}")


# 1: enums, flags, numbers
enums, flags, numbers = [], [], []
for where, text in texts.items():
    for m in re.finditer(r"\benum (\w+)(<[^{]*>)? \{(.*?)\n\}", text, re.S):
        variants = [v for v in split_commas(m.group(3)) if v]
        bare = [v for v in variants if "(" not in v and "{" not in v]
        loaded = len(variants) - len(bare)
        if len(variants) == 2 and loaded <= 2 or any(re.match(r"(Refused|Fault|Nothing|None|Malformed|Whole)", v) for v in variants):
            enums.append(f"{where}: {m.group(1)} ({', '.join(variants)})")
    for m in re.finditer(r"\bstruct (\w+)(<[^{]*>)? \{(.*?)\n\}", text, re.S):
        for field in split_commas(m.group(3)):
            if re.search(r": bool$", field):
                flags.append(f"{where}: {m.group(1)}.{field.split(':')[0].replace('pub ', '').strip()}")
    for m in re.finditer(r"\bconst (\w+): u8 = ", text):
        numbers.append(f"{where}: {m.group(1)}")
    for m in re.finditer(r"\bconst (\w+): usize = (0xffff_ffff_ffff_ffff|0x4000_0000_0000_0000);", text):
        numbers.append(f"{where}: {m.group(1)}")
for f in functions:
    if re.search(r"\b(kind|operator|op|opcode|head)\b\s*==?\s*\d|match (kind|op|q|which|n|operator)\b", f.body):
        numbers.append(f.label() + " (kinds by number)")
    if re.search(r"return (16|4);|== 16\b|kind == 4\b|NOT_DONE", f.body) and "_16" not in f.body:
        numbers.append(f.label() + " (a number that stands for none)")
say("1a", "own enums of the shape of Option or Result", enums)
say("1b", "flags in structs", flags)
say("1c", "numbers for kinds, refusals or none", sorted(set(numbers)))

# 2: functions alike but for names, numbers and types
groups = defaultdict(list)
for f in functions:
    body = re.sub(r"\s+", " ", f.body).strip()
    if len(body) < 30:
        continue
    seen = {}
    def rename(m):
        w = m.group(0)
        if w in ("if", "else", "while", "for", "in", "let", "mut", "match", "return", "loop", "as", "true", "false", "Some", "None", "Ok", "Err", "self"):
            return w
        return seen.setdefault(w, f"v{len(seen)}")
    shape = re.sub(r"\b\d[\w.]*", "0", body)
    shape = re.sub(r"b?\"[^\"]*\"|b?'[^']*'", "s", shape)
    shape = re.sub(r"\b[A-Za-z_]\w*\b", rename, shape)
    shape = re.sub(r"[+*/<>-]=?", "o", shape)
    groups[shape].append(f.label())
say("2a", "groups of functions alike but for names, numbers and types", [", ".join(g) for g in groups.values() if len(g) > 1])

# 3: loops
counted, other = [], []
for f in functions:
    for m in re.finditer(r"\b(while ([^{]+)|loop) \{", f.body):
        end = block_end(f.body, m.end() - 1)
        inside = f.body[m.end():end]
        condition = m.group(2) or ""
        names = set(re.findall(r"\b[a-z_]\w*\b", condition))
        steps = set(re.findall(r"\b(\w+) [+-]= (?:1|[A-Z_]+|n)\b", inside))
        label = f.label() + (f" while {condition.strip()}" if condition else " loop")
        (counted if names & steps else other).append(label)
say("3a", "loops that count by hand", counted)
say("3b", "other while and loop", other)
say("3c", "for loops and chains", [f.label() for f in functions if re.search(r"\bfor \w|\bfor \(|\.iter\(\)|\.iter_mut\(\)", f.body)])

# 4: written by hand
hand = []
for f in functions:
    body = re.sub(r"\s+", " ", f.body).strip()
    if re.fullmatch(r"if (\w+) \{ return true; \} (if \w+ \{ return true; \} )?\w+", body) or re.fullmatch(r"if (\w+) \{ return \w+; \} false", body) or re.fullmatch(r"\w+ && \w+", body):
        hand.append(f.label() + " (and, or)")
    elif re.fullmatch(r"if \w+ \{ 1 \} else \{ 0 \}", body):
        hand.append(f.label() + " (a truth value as a number)")
    elif re.fullmatch(r"if (\w+) < (\w+) \{ (return )?\w+;? \}( else \{)? \w+( \})?", body):
        hand.append(f.label() + " (least, most)")
    elif re.search(r"\[\w+( \+ \w+)?\] = \w+\[\w+\];", body) and "while" in body:
        hand.append(f.label() + " (copy)")
    elif re.search(r"\[i\] = (0|FILL|x);", body) and "while" in body:
        hand.append(f.label() + " (fill)")
    elif re.search(r"match \w+ \{( [\w:]+(\(\w+(, \w+)*\))? => (true|false|0),?){3,} \}$", body) or len(re.findall(r"=> (true|false|0|count),", body)) >= 3:
        hand.append(f.label() + " (a variant asked for by all arms)")
    elif re.search(r"^(same|alike|equal)", f.name):
        hand.append(f.label() + " (equality)")
    elif re.search(r"/ 256( / 256)+|256 \* wide|b1 / 256", body):
        hand.append(f.label() + " (bytes of a number)")
say("4", "written by hand", hand)

# 5: facts and parameters
facts, sets = defaultdict(set), defaultdict(set)
for f in functions:
    for kind, clause in f.clauses:
        if kind == "requires":
            depth, part, parts = 0, "", []
            for ch in clause:
                depth += {"(": 1, ")": -1}.get(ch, 0)
                if ch == "×" and depth == 0:
                    parts.append(part.strip())
                    part = ""
                else:
                    part += ch
            parts.append(part.strip())
            for p in parts:
                while p.startswith("(") and p.endswith(")"):
                    p = p[1:-1]
                facts[(f.where.split("/")[0], p)].add(f.name)
    named = [re.sub(r"\s+", " ", p) for p in f.parameters if ":" in p and "self" not in p]
    for a in range(len(named)):
        for n in (3, 4, 5, 6):
            if a + n <= len(named):
                sets[(f.where.split("/")[0], ", ".join(named[a:a + n]))].add(f.name)
say("5a", "facts asked for by three functions or more", [f"{c}: {p} ({len(n)})" for (c, p), n in sorted(facts.items()) if len(n) > 2 and len(p) > 8])
best = [((c, s), n) for (c, s), n in sets.items() if len(n) > 2]
kept = [(k, n) for k, n in best if not any(k[0] == o[0] and k != o and k[1] in o[1] and n <= m for o, m in best)]
say("5b", "three parameters or more that three functions or more hand on", [f"{c}: ({s}) ({len(n)})" for (c, s), n in sorted(kept)])
say("5c", "functions of seven parameters or more", [f"{f.label()} ({len(f.parameters)})" for f in functions if len(f.parameters) > 6])

# 6: buffers and parallel arrays
buffers = []
for where, text in texts.items():
    for m in re.finditer(r"\bstruct (\w+) \{(.*?)\n\}", text, re.S):
        if re.search(r": \[\w+; ", m.group(2)) and re.search(r"(count|length|len): usize", m.group(2)):
            buffers.append(f"{where}: {m.group(1)} (an array with a count)")
        if re.search(r"count: usize.*first.*ninth", m.group(2), re.S):
            buffers.append(f"{where}: {m.group(1)} (nine fields with a count)")
for f in functions:
    sizes = re.findall(r"let mut \w+ = \[[^;\]]+; (\d+)\]", f.body)
    if any(sizes.count(s) > 2 for s in sizes):
        buffers.append(f.label() + " (parallel arrays)")
    if re.search(r"\w+\[8 \* \w+( \+ \d)?\]", f.body):
        buffers.append(f.label() + " (rows in an array of numbers)")
    if re.search(r"\bc: &mut \[usize; 6\]|l: &\[usize; 3\]", ", ".join(f.parameters)):
        buffers.append(f.label() + " (numbers by place)")
say("6", "buffers with a length, parallel arrays, rows of numbers", buffers)

# 7: switches
say("7", "a switch on a number over functions", [f.label() for f in functions if len(re.findall(r"=> \w+(::\w+)*\(", f.body)) > 3 or len(re.findall(r"(?:opcode|op|kept\.count) == \d+ \{\s*return", f.body)) > 2])

# 8: proofs
answers = glob.glob(os.path.join(tree, "crates/*/proofs/**/Answers.antt"), recursive=True)
lines = sum(len(open(a).read().splitlines()) for a in answers)
read = sum(open(a).read().count("in_default-own") for a in answers)
converted = sum(len(re.findall(r"in let \w+ = .*? in record", open(a).read(), re.S)) for a in answers)
if not only or only == "8":
    print(f"8 files of answers: {len(answers)}, lines: {lines}, names of the checker's own: {read}, bound as a converter left them: {converted}")
