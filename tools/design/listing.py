#!/usr/bin/env python3
"""Prints the end of docs/DESIGN-PASS.md: public functions, types and definitions of two trees that differ, old and new: listing.py OLD NEW."""
import glob, os, re, sys
from collections import defaultdict

# Where a function of the old tree is found in the new one, by crate and name.
RENAMED = {
    ("work", "fresh"): "Kept::new", ("work", "keep"): "Kept::with", ("lower", "root"): "Source::node",
    ("run", "fresh_state"): "State::fresh", ("rules", "code"): "RulePart::code", ("rules", "parts_of"): "Code::parts", ("rules", "end_of"): "RulePart::end",
    ("survey", "child"): "Node::child", ("survey", "diff_attributes"): "Part::diff_attributes", ("survey", "literal_bits"): "Node::literal_bits",
    ("survey", "is_zero"): "Attributes::is_zero", ("survey", "is_one"): "Attributes::is_one", ("survey", "rule_attributes"): "Part::rule_attributes",
    ("survey", "rule_of"): "Part::rule_number", ("survey", "with_primal"): "Attributes::with_primal",
}

# Where a law of the old tree that README or docs/ named is found in the new one, by crate and name.
RENAMED_LAWS = {
    ("run", "plain_power"): ("run", "plain_question"), ("run", "plain_function"): ("run", "plain_question"), ("hosted", "told"): ("demand", "told"),
}


def block_end(text, start, pair="{}"):
    depth = 0
    for i in range(start, len(text)):
        depth += (text[i] == pair[0]) - (text[i] == pair[1])
        if depth == 0:
            return i + 1
    return len(text)


def flat(text):
    text = re.sub(r",\s*(?=[)}])", "", re.sub(r"\s+", " ", text).strip())
    return re.sub(r"\{ (?=\w+: )", "{ ", text).replace("( ", "(").replace(" )", ")")


def clauses(text, at):
    """The clauses from a place on, without their names, and where they end."""
    found = []
    while True:
        m = re.match(r"\s*(requires|ensures)\s*\w*\s*\{", text[at:])
        if not m:
            return found, at
        end = block_end(text, at + m.end() - 1)
        found.append(f"{m.group(1)} {{ {flat(text[at + m.end():end - 1])} }}")
        at = end


def owners(text):
    """For each impl and trait: where its block is, and the name of its type."""
    found = []
    for m in re.finditer(r"^(?:pub )?(?:impl(?:<[^>{]*>)?|trait) ([^{;]*?)\s*\{", text, re.M):
        name = re.sub(r"<.*", "", m.group(1).split(" for ")[-1].split(":")[0]).strip()
        found.append((m.start(), block_end(text, m.end() - 1), name))
    return found


def source(tree):
    functions, types, crates = defaultdict(list), {}, []
    listed = [line.split()[0].rstrip(":") for line in open(os.path.join(tree, "crates.txt")) if line.strip() and line[0] != "#"]
    for crate in listed:
        crates.append(crate)
        for path in sorted(glob.glob(os.path.join(tree, "crates", crate, "src", "**", "*.rt"), recursive=True)):
            text = re.sub(r"//[^\n]*", "", open(path).read())
            blocks = owners(text)
            stem = os.path.splitext(os.path.basename(path))[0]
            module = "" if stem in ("lib", "main") else stem + "::"
            for m in re.finditer(r"^( *)((?:pub(?:\(crate\))? )?)fn (\w+)((?:<[^(]*>)?)\(", text, re.M):
                owner = next((n for a, b, n in blocks if a <= m.start() < b), "")
                in_trait = any(a <= m.start() < b and re.match(r"(pub )?trait", text[a:]) for a, b, n in blocks)
                if m.group(2) != "pub " and not in_trait:
                    continue
                end = block_end(text, m.end() - 1, "()")
                arrow = re.match(r"\s*->\s*([^\n{;]+?)(?=\s*(\n|\{|;))", text[end:])
                head = f"{m.group(3)}{m.group(4)}({flat(text[m.end():end - 1]).rstrip(', ')})" + (f" -> {arrow.group(1).strip()}" if arrow else "")
                said, _ = clauses(text, end + (arrow.end() if arrow else 0))
                inside = module + (owner + "::" if owner else "")
                functions[crate].append((inside + m.group(3), inside + head, " ".join(said)))
            for m in re.finditer(r"^pub (?:struct|enum|trait|type) (\w+)[^;{\n]*(\{|;|[^\n]*;)", text, re.M):
                if m.group(2) == "{":
                    body = text[m.start():block_end(text, m.end() - 1)]
                    if body.startswith("pub trait"):
                        body = re.sub(r"\bfn .*", "", body, flags=re.S) + "}"
                else:
                    body = m.group(0)
                types[crate, m.group(1)] = flat(body)
    return functions, types, crates


def definitions(tree):
    found = {}
    for path in sorted(glob.glob(os.path.join(tree, "crates", "*", "specs", "**", "*.antt"), recursive=True)):
        crate = os.path.relpath(path, os.path.join(tree, "crates")).split("/")[0]
        text = re.sub(r"^\s*--[^\n]*\n", "\n", open(path).read(), flags=re.M)
        for part in re.split(r"\n\s*\n", text):
            m = re.search(r"^\s*((?:abbrev|unfoldable|opaque|record|data|pub)\b.*)", part, re.S | re.M)
            if m:
                name = re.search(r"\bpub (?:record |data )?([^\s:({]+)", m.group(1))
                if name and name.group(1) not in ("use", "mod"):
                    found[crate, name.group(1)] = flat(re.sub(r"\s*--[^\n]*", "", m.group(1)))
    return found


def impls(tree):
    """For each `impl .. for ..` with ghost members or clauses: these, by crate and head."""
    found = {}
    for path in sorted(glob.glob(os.path.join(tree, "crates", "*", "src", "**", "*.rt"), recursive=True)):
        crate = os.path.relpath(path, os.path.join(tree, "crates")).split("/")[0]
        text = re.sub(r"//[^\n]*", "", open(path).read())
        for m in re.finditer(r"^impl(?:<[^>{]*>)? ([^{;]*? for [^{;]*?)\s*\{", text, re.M):
            body = text[m.start():block_end(text, m.end() - 1)]
            parts = [flat(body[g.start():block_end(body, g.end() - 1)]) for g in re.finditer(r"^ +ghost \w+\s*[:=]\s*\{", body, re.M)]
            for f in re.finditer(r"^ +(?:pub )?fn (\w+)[^(]*\(", body, re.M):
                end = block_end(body, f.end() - 1, "()")
                arrow = re.match(r"\s*->\s*([^\n{;]+?)(?=\s*(\n|\{|;))", body[end:])
                said, _ = clauses(body, end + (arrow.end() if arrow else 0))
                if said:
                    parts.append(f"{f.group(1)}: " + " ".join(said))
            if parts:
                found[crate, "impl " + flat(m.group(1))] = " ".join(f"`{part}`" for part in parts)
    return found


def laws(tree):
    """The statements of the laws of proofs/ by crate, file and name, with what the modules around them take, and the keys of the public ones."""
    found, public = {}, set()
    for path in sorted(glob.glob(os.path.join(tree, "crates", "*", "proofs", "**", "*.antt"), recursive=True)):
        crate, stem = os.path.relpath(path, os.path.join(tree, "crates")).split("/")[0], os.path.splitext(os.path.basename(path))[0]
        if stem in ("Answers", "Invariants", "Goals", "Given", "Lib"):
            continue
        lines = [re.sub(r"\s*--( .*)?$", "", line) for line in open(path).read().split("\n")]
        around, at = [], 0
        while at < len(lines):
            line, indent = lines[at], len(lines[at]) - len(lines[at].lstrip())
            if line.strip():
                around = [(depth, taken) for depth, taken in around if depth < indent]
            name = re.match(r" *(?:pub )?([^\s(:={]+) :", line)
            if re.match(r" *module _", line):
                part = line.strip()
                while not part.endswith("where") and at + 1 < len(lines):
                    at += 1
                    part += " " + lines[at].strip()
                around.append((indent, flat(part[len("module _"):-len("where")])))
            elif name:
                part, here, own = re.sub(r"^pub ", "", line.strip()), at + 1, r" {%d}(?:" % indent + re.escape(name.group(1)) + r"(?=[\s=])|unfolding\b)"
                while here < len(lines) and re.match(r" {%d} *\S" % (indent + 1), lines[here]):
                    part += " " + lines[here].strip()
                    here += 1
                key = crate, stem, name.group(1)
                if here < len(lines) and re.match(own, lines[here]) and key not in public:
                    found[key] = flat(" ".join([taken for _, taken in around] + [part]))
                    public.update([key] if line.lstrip().startswith("pub ") else [])
            at += 1
    return found, public


def named(tree, known):
    """The laws that README or docs/ name: in backticks, in a line or beside one with the law's file and its crate, or by a name of two words that is one law's."""
    found, alone = set(), [name for _, _, name in known]
    alone = {name for name in alone if "_" in name and alone.count(name) == 1}
    for path in [os.path.join(tree, "README.md")] + sorted(glob.glob(os.path.join(tree, "docs", "*.md"))):
        lines = open(path).read().split("\n")
        for at, line in enumerate(lines):
            words = {word for part in re.findall(r"`([^`]*)`", line) for word in re.findall(r"[^\s,:;()`]+", part)}
            near = line if line.startswith("|") else " ".join(lines[max(at - 1, 0):at + 2])
            places = set(re.findall(r"[\w']+", near))
            found.update(key for key in known if key[2] in words and (key[2] in alone or key[1] in places and key[0] in places))
    return found


def shown(head, said):
    return f"`{head}`" + (f" `{said}`" if said else "")


old, new = (source(t) for t in sys.argv[1:3])
print("### Public functions whose signature or clauses changed\n")
fresh = defaultdict(list)
for crate in new[2]:
    taken, lines = set(), []
    by_name = {f[0]: f for f in new[0][crate]}
    for name, head, said in old[0][crate]:
        wanted = RENAMED.get((crate, name), name)
        match = by_name.get(wanted)
        if match:
            taken.add(match[0])
            if match[1:] == (head, said):
                continue
            rest = " the same clauses" if match[2] == said and said else f" `{match[2]}`" if match[2] else ""
            lines.append(f"- `{name}`\n  - old: {shown(head, said)}\n  - new: `{match[1]}`{rest}")
        else:
            lines.append(f"- `{name}`\n  - old: {shown(head, said)}\n  - new: gone")
    fresh[crate] = [f[0] for f in new[0][crate] if f[0] not in taken]
    if lines:
        print(f"**{crate}**\n\n" + "\n".join(lines) + "\n")
print("### New public functions\n")
for crate in new[2]:
    if fresh[crate]:
        print(f"- {crate}: " + ", ".join(f"`{n}`" for n in fresh[crate]))
print("\n### Public types that changed, with what always holds of them (`ghost`)\n")
for key in sorted(set(old[1]) | set(new[1])):
    if old[1].get(key) != new[1].get(key):
        print(f"- {key[0]}, `{key[1]}`\n  - old: " + (f"`{old[1][key]}`" if key in old[1] else "none") + "\n  - new: " + (f"`{new[1][key]}`" if key in new[1] else "gone"))
before, after = impls(sys.argv[1]), impls(sys.argv[2])
print("\n### Impls of traits with ghost members or clauses that changed\n")
for key in sorted(set(before) | set(after)):
    if before.get(key) != after.get(key):
        print(f"- {key[0]}, `{key[1]}`\n  - old: {before.get(key, 'none')}\n  - new: {after.get(key, 'gone')}")
(before, public), (after, _) = laws(sys.argv[1]), laws(sys.argv[2])
print("\n### Theorems that README or docs/ named and whose statement changed\n")
for key in sorted(named(sys.argv[1], public)):
    crate, name = RENAMED_LAWS.get((key[0], key[2]), (key[0], key[2]))
    match = next((other for other in [(crate, key[1], name)] + sorted(after) if other in after and (other[0], other[2]) == (crate, name)), None)
    if match is None or after[match] != before[key]:
        print(f"- {key[0]}, `{key[1]}: {key[2]}`\n  - old: `{before[key]}`\n  - new: " + (f"`{after[match]}`" if match else "gone"))
before, after = definitions(sys.argv[1]), definitions(sys.argv[2])
print("\n### Definitions of specs/ that changed\n")
for key in sorted(before):
    if key in after and after[key] != before[key]:
        print(f"- {key[0]}, `{key[1]}`\n  - old: `{before[key]}`\n  - new: `{after[key]}`")
print("\n### Definitions of specs/ that are gone\n")
gone = defaultdict(list)
for crate, name in sorted(before):
    if (crate, name) not in after:
        gone[crate].append(f"`{name}`")
for crate, names in gone.items():
    print(f"- {crate}: " + ", ".join(names))
