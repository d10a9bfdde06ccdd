#!/usr/bin/env python3
"""Brings the repository's own definitions and lemmas to the spelling of today's library. Run once, at the top, after port.py.

A definition, a field and an alias are in snake case: setOf becomes set_of. In a lemma's name a dash joins two names, as in
size-union, and a plain word is added with _, as in bit_low. Functions of src/, strings, inputs and outputs keep their names. A
name that would meet another in one file gets _lem. The names are turned as whole words: in .antt files, in the clauses of .rt files,
in the edits of must-fail/, and in the code spans of README.md and docs/.
"""
import os
import re
import sys

HERE = os.path.dirname(os.path.dirname(os.path.realpath(__file__)))
WORD = re.compile(r'[^\s(){}.;,@"«»]+')
DECLARED = re.compile(r"(?m)^ *((?:(?:pub|abbrev|unfoldable|record|data|ruleset) )*)([^\s(){}.;,@\"«»:]+)(?: [({][^\n]*?[)}])* :(?: |$)")
WRAPPED = re.compile(r"(?m)^ *((?:(?:pub|abbrev|unfoldable) )*)([^\s(){}.;,@\"«»:]+)\n +: ")
ALIAS = re.compile(r" as ([a-z]\w*)")
FIELDS = re.compile(r"(?m)^( *)(?:pub )?record (?:.*\n)*?.* where\n((?:\1 .*\n|\n)*)")
LIBRARY = """length append take drop get_or set map replicate zero suc one add sub mul div mod pow eqb ltb leb not cond refl nil cons
count sum filter member union over min max paste sets insert remove swap reverse concat true false T""".split()
# the words of Rattle's own names, and the needs of a Proof.antt, which the check names
MADE = re.compile(r"^(Need-|In-|At-|After-|Then|Else|told-|fits-)")


def files(top, ending):
    for folder, dirs, names in os.walk(top):
        dirs[:] = sorted(d for d in dirs if d not in ("out", ".git", "target"))
        for name in sorted(names):
            if name.endswith(ending):
                yield os.path.join(folder, name)


def read(path):
    with open(path, encoding="utf-8") as f:
        return f.read()


def snake(name):
    return re.sub(r"(?<=[a-z0-9])[A-Z]", lambda m: "_" + m[0].lower(), name) if name[:1].islower() else name


def definitions(texts):
    """The names that are declared, each with whether it is a definition or a field."""
    found = {}
    for path, text in texts.items():
        own = os.path.basename(path) == "Proof.antt"
        fields = set()
        for block in FIELDS.finditer(text):
            fields |= {m[2] for m in DECLARED.finditer(block[2])}
        for m in list(DECLARED.finditer(text)) + list(WRAPPED.finditer(text)):
            line = text[m.start() : text.find("\n", m.end())]
            if own and re.search(r": (tie\.|\{M : )", line):
                continue
            is_definition = "abbrev" in m[1] or "unfoldable" in m[1] or m[2] in fields
            found[m[2]] = found.get(m[2], False) or is_definition
        for m in re.finditer(r"(?m)^use .*$", text):
            for alias in ALIAS.findall(m[0]):
                found.setdefault(alias, True)
    return found


def table(texts, sources):
    found = definitions(texts)
    for text in sources.values():
        for m in re.finditer(r"ghost use [^;]*;", text):
            for alias in ALIAS.findall(m[0]):
                found.setdefault(alias, True)
    names = set(LIBRARY)
    for text in sources.values():
        names |= set(re.findall(r"\bfn (\w+)", text))
    names |= {snake(n) for n, is_definition in found.items() if is_definition and "-" not in n}
    needs = set()
    for path, text in texts.items():
        if os.path.basename(path) == "Proof.antt":
            needs |= {m[1] for m in re.finditer(r"(?m)^(\S+) : tie\.", text)}
    rows = {}
    for name, is_definition in found.items():
        if MADE.match(name) or name in needs or name[:1].isupper():
            continue
        if is_definition:
            new = snake(name).replace("-", "_")
        else:
            parts = [snake(p) for p in name.split("-")]
            new = parts[0]
            for before, after in zip(parts, parts[1:]):
                joins = before in names or not re.match(r"\w", before)
                joins = joins and (after in names or not re.match(r"\w", after))
                new += ("-" if joins else "_") + after
        new = new.replace("′", "'")
        if new != name and not name.startswith("-") and "" not in name.split("-"):
            rows[name] = new
    return rows, {name for name, is_definition in found.items() if is_definition}


def turned(text, rows):
    return WORD.sub(lambda m: rows.get(m[0], m[0]), text)


def turned_proof(text, rows, fields):
    """The same in a proof that walks the code: behind a dot stand Rattle's own names, but for the fields of the repository's records."""
    return re.sub(r"(\.?)" + WORD.pattern, lambda m: m[0] if m[1] and m[0][1:] not in fields else m[1] + rows.get(m[0][len(m[1]) :], m[0][len(m[1]) :]), text)


def code_of(text):
    """The text's parts: code, and comments, which are turned in their code spans alone."""
    return re.split(r"((?:^|(?<=\s))--[^\n]*)", text)


def turn_antt(path, text, rows, fields):
    own = os.path.basename(path) == "Proof.antt"
    parts = code_of(text)
    for i, part in enumerate(parts):
        if i % 2:
            parts[i] = turn_spans(part, rows)
        else:
            parts[i] = turned_proof(part, rows, fields) if own else turned(part, rows)
    return "".join(parts)


def turn_spans(text, rows):
    text = re.sub(r"(`+)([^`\n]+)\1", lambda m: m[1] + turned(m[2], rows) + m[1], text)
    return re.sub(r"(?<![\w-])[a-z]+[A-Z]\w*", lambda m: rows.get(m[0], m[0]), text)


def turn_rt(text, rows):
    lines = []
    for line in text.split("\n"):
        bare = line.strip()
        if bare.startswith("//"):
            lines.append(turn_spans(line, rows))
        elif '"' in line:
            lines.append(line)
        else:
            clause = re.match(r"(ghost|requires|ensures)\b", bare)
            some = rows if clause else {k: v for k, v in rows.items() if "-" not in k}
            lines.append(turned(line, some))
    return "\n".join(lines)


def main():
    crates = os.path.join(HERE, "crates")
    texts = {p: read(p) for p in files(crates, ".antt")}
    sources = {p: read(p) for p in files(crates, ".rt")}
    rows, defined = table(texts, sources)
    fields = {m[2] for text in texts.values() for block in FIELDS.finditer(text) for m in DECLARED.finditer(block[2])}
    # a function of src/ is also the name of a folder of proofs/, and meets nothing
    of_code = {name for text in sources.values() for name in re.findall(r"\bfn (\w+)", text)}
    met = set()
    for path, text in list(texts.items()) + list(sources.items()):
        words = set(WORD.findall("".join(code_of(text)[::2])))
        here = {}
        for word in words:
            here.setdefault(rows.get(word, word), []).append(word)
        for new, olds in here.items():
            olds = [o for o in olds if o in rows or o not in of_code]
            if len(olds) > 1:
                stays = [o for o in olds if o not in rows] or [o for o in olds if o in defined and o not in fields][:1]
                met |= {o for o in olds if o in rows and o not in stays}
                print(f"meet: {path[len(HERE) + 1:]}: {new}: {' '.join(sorted(olds))}, of which {' '.join(stays)} has the name")
    for name in met:
        rows[name] += "_lem"
    if "--check" in sys.argv:
        for old, new in sorted(rows.items()):
            print(f"{old}\t{new}")
        return
    edits = {p: read(p) for p in files(crates, ".edit")}
    pages = {p: read(p) for p in [os.path.join(HERE, "README.md"), *files(os.path.join(HERE, "docs"), ".md")]}
    for path, text in texts.items():
        put(path, text, turn_antt(path, text, rows, fields))
    for path, text in sources.items():
        put(path, text, turn_rt(text, rows))
    for path, text in edits.items():
        lines = [turned(l, rows) if re.match(r"(old|new): ", l) else l for l in text.split("\n")]
        if "file: src/" in text:
            lines = [turn_rt(l, rows) if re.match(r"(old|new): ", l) else l for l in text.split("\n")]
        put(path, text, "\n".join(lines))
    for path, text in pages.items():
        put(path, text, turn_spans(text, rows))
    with open(os.path.join(HERE, "docs", "respelled.tsv"), "w", encoding="utf-8") as f:
        f.writelines(f"{old}\t{new}\n" for old, new in sorted(rows.items()))


def put(path, old, new):
    if new != old:
        with open(path, "w", encoding="utf-8") as f:
            f.write(new)


main()
