#!/usr/bin/env python3
"""Brings the names of this repository's definitions and lemmas to the spelling of the language's library, once, after port.py:
words in snake case (`sourceRecords` to `source_records`, `keep-none` to `keep_none`), types and modules in camel case, a prime as an apostrophe.

usage: tools/respell.py [--dry]     at the top of the repository; --dry prints the names and what falls together, and writes nothing

Names of the source (functions, fields, enums), strings, inputs and outputs stay. Goals of the checker (Proof.antt) stay.
A lemma that would then have a definition's name gets `_lem`.
"""
import os
import re
import sys

TOKEN = re.compile(r'"(?:[^"\\]|\\.)*"|--[^\n]*|//[^\n]*|[^\s(){};,.«»"\[\]]+|\[\]|.', re.S)
HEAD = re.compile(r"^\s*(?:(?:abbrev|unfoldable|pub|ruleset|opaque|data|record)\s+)*([^\s(){};,.«»\"\[\]:=]+)((?:\s+[({][^=]*?)?\s+:(?=\s)|\s+=\s)")
USE = re.compile(r"^(?:ghost use|pub use|use)\s+(.*?)(?:;|$)", re.M)
OURS = {}


def ours():
    with open("crates.txt") as f:
        names = [line.split(":")[0].split()[0] for line in f if line.strip() and not line.startswith("#")]
    return set(names)


def snake(name):
    if name[0].isupper() or not name[0].isalpha():
        parts = name.split("-")
        if len(parts) > 1 and re.fullmatch(r"[A-Za-z0-9'-]+", name) and not name[0].isupper():
            return "_".join(parts)
        return name
    name = name.replace("′", "'")
    name = re.sub(r"(?<=[a-z0-9])([A-Z])", lambda m: "_" + m.group(1).lower(), name)
    name = re.sub(r"([A-Z])", lambda m: m.group(1).lower(), name)
    return name.replace("-", "_")


def files():
    for top, dirs, names in os.walk("crates"):
        dirs[:] = sorted(d for d in dirs if d != "out")
        for n in sorted(names):
            if n.endswith((".antt", ".rt")):
                yield os.path.join(top, n)


def imported(text):
    """name -> path it is imported from"""
    found = {}
    for m in re.finditer(r"^(?:ghost use|pub use|use)\s+([^\s{;]+?)\.?\{([^}]*)\}", text, re.M):
        for part in m.group(2).split(","):
            words = part.split()
            if words:
                found[words[-1]] = (m.group(1), words[0])
    return found


def is_ours(path, crates):
    parts = path.split(".")
    return parts[0] == "Rattle" and len(parts) > 1 and parts[1] in crates


def defined(text):
    names = set()
    for line in text.split("\n"):
        if line.lstrip().startswith(("--", "use ", "let ", "→", "module ", "unfolding ", "elim ", "|")):
            continue
        m = HEAD.match(line)
        if m:
            names.add(m.group(1))
    for m in re.finditer(r"^\s*(?:pub )?(?:data|record)\s+(\S+)", text, re.M):
        names.add(m.group(1))
    return names


def free(name, defs, taken):
    while name in defs or name in taken:
        name += "_lem"
    return name


def hidden(path, text, table):
    """says where a name would stand beside another thing of that name in one file"""
    if path.endswith(".rt"):
        text = "\n".join(text[a:b] for a, b in clause_spans(text)) + "\n" + "\n".join(re.findall(r"fn \w+[^{]*?\(.*?\)", text, re.S))
        text = re.sub(r"fn \w+", "fn", text)
    tokens = TOKEN.findall(text)
    plain = {t for i, t in enumerate(tokens) if i == 0 or tokens[i - 1] != "."}
    for old, new in table.items():
        if old in plain and new in plain and new not in table:
            print("hides:", old, new, path)


def main():
    dry = "--dry" in sys.argv
    crates = ours()
    texts = {p: open(p, encoding="utf-8").read() for p in files()}
    defs = {}
    for p, t in texts.items():
        if p.endswith(".antt") and not p.endswith("Proof.antt"):
            for n in defined(t):
                defs.setdefault(n, set()).add(p)
    table = {n: snake(n) for n in defs if snake(n) != n}
    every = set()
    for p, t in texts.items():
        every.update(TOKEN.findall(t))
    specs = {n for n, ps in defs.items() if any("/specs/" in p for p in ps)}
    taken = {}
    for n in sorted(table, key=lambda n: (n not in specs, n)):
        new = table[n]
        if new in taken or new in defs:
            other = taken.get(new, new)
            print("together:", n, other, "->", new)
            if other == new and n in specs and other not in specs:
                table[other] = free(new + "_lem", defs, taken)
                taken[table[other]] = other
            else:
                new = free(new + "_lem", defs, taken)
                table[n] = new
        taken[new] = n
    for p, t in texts.items():
        hidden(p, t, table)
    print(len(table), "names", file=sys.stderr)
    if dry:
        return
    for p, t in texts.items():
        here = imported(t)
        local = defined(t) if p.endswith("Proof.antt") else set()
        new = respell(p, t, table, here, local, crates)
        if new != t:
            with open(p, "w", encoding="utf-8") as f:
                f.write(new)


def clause_spans(text):
    """the parts of a source file that are clauses or ghost lines"""
    spans = []
    for m in re.finditer(r"^(?:pub )?ghost use [^;]*;", text, re.M):
        spans.append(m.span())
    for m in re.finditer(r"\b(?:requires|ensures|invariant|ghost invariant|ghost \w+:|decreases|prove!)\b[^{\n]*\{", text):
        depth, i = 1, m.end()
        while depth and i < len(text):
            depth += {"{": 1, "}": -1}.get(text[i], 0)
            i += 1
        spans.append((m.end(), i))
    return sorted(spans)


def respell(path, text, table, here, local, crates):
    if path.endswith(".rt"):
        out, at = [], 0
        for a, b in clause_spans(text):
            if a < at:
                continue
            out.append(text[at:a])
            out.append(words(text[a:b], table, here, local, crates))
            at = b
        out.append(text[at:])
        return "".join(out)
    return words(text, table, here, local, crates)


def words(text, table, here, local, crates):
    lines = []
    for line in re.split(r"(?<=\n)", text):
        m = re.match(r"\s*(?:ghost use|pub use|use)\s+([^\s{;]+)", line)
        if m:
            path = m.group(1).rstrip(".")
            if is_ours(path, crates):
                line = swap(line, table, {}, set(), crates, True)
            lines.append(line)
            continue
        lines.append(swap(line, table, here, local, crates, False))
    return "".join(lines)


def swap(line, table, here, local, crates, use):
    tokens = TOKEN.findall(line)
    out = []
    for i, t in enumerate(tokens):
        if t in table:
            foreign = t in here and not is_ours(here[t][0], crates)
            dotted = i > 0 and tokens[i - 1] == "."
            if use:
                out.append(table[t])
                continue
            if dotted:
                before = tokens[i - 2] if i > 1 else ""
                if before[:1].isupper() or "-" not in t:
                    out.append(table[t])
                else:
                    out.append(t)
                continue
            if foreign or t in local:
                out.append(t)
            else:
                out.append(table[t])
        else:
            out.append(t)
    return "".join(out)


if __name__ == "__main__":
    main()
