"""Counts the places of docs/DESIGN-PASS.md in crates/*/src: python3 tools/places.py [--list] [FOLDER]

Each point has patterns. A pattern finds candidates: whether one is a place in the sense of its point is for a reader to say.
"""
import collections
import difflib
import pathlib
import re
import sys

listing = "--list" in sys.argv
folders = [a for a in sys.argv[1:] if not a.startswith("--")]
root = pathlib.Path(folders[0] if folders else ".")
files = sorted(root.glob("crates/*/src/**/*.rt"))
texts = {f: f.read_text() for f in files}


def name_of(path):
    return str(path.relative_to(root / "crates"))


def lines_with(pattern):
    found = []
    for path, text in texts.items():
        for number, line in enumerate(text.split("\n"), 1):
            if re.search(pattern, line) and not line.lstrip().startswith("//"):
                found.append((name_of(path), number, line.strip()))
    return found


def declarations(kind):
    for path, text in texts.items():
        for m in re.finditer(r"(?m)^(?:pub(?:\(crate\))? )?" + kind + r" (\w+)[^;{]*\{\n(.*?)^\}", text, re.S | re.M):
            yield name_of(path), text[: m.start()].count("\n") + 1, m.group(1), m.group(2)


def functions():
    # name, parameters, clauses and body of each function
    for path, text in texts.items():
        head = r"(?m)^ *(?:pub(?:\(crate\))? )?(?:extern \"C\" )?fn (\w+)(?:<[^(]*>)?\((.*?)\)( -> [^\n{]*)?\s*((?:\n? +(?:requires|ensures|×)[^\n]*\n?)*)\s*\{\n"
        for m in re.finditer(head, text, re.S):
            indent = re.match(r" *", m.group(0)).group(0)
            end = text.find("\n" + indent + "}", m.end() - 1)
            clauses = re.sub(r"\n +× ", " × ", m.group(4))
            yield (name_of(path), text[: m.start()].count("\n") + 1, m.group(1), m.group(2), clauses, text[m.end() : end])


def own_outcomes():
    bad = r"^\s+(Bad|Broken|Ended|Misnamed|NoQuestion|Unwritten|NotCompiled|Done|Refused|NoMore)\b"
    return [(p, n, "enum " + e) for p, n, e, b in declarations("enum") if re.search(bad, b, re.M)]


def flags_beside_values():
    return [(p, n, "struct " + s) for p, n, s, b in declarations("struct") if re.search(r"\b(good|whole|fits|same): bool", b)]


def buffers_with_lengths():
    found = []
    for p, n, s, b in declarations("struct"):
        if re.search(r": \[u(8|16); \w+\],", b) and re.search(r"\b(len|count): usize", b):
            found.append((p, n, "struct " + s))
    return found


def shape(body):
    body = re.sub(r"//[^\n]*", "", body)
    body = re.sub(r'b?"[^"]*"|b?\'[^\']*\'|\b\d+\b|\b[A-Z_]{2,}\b', "1", body)
    return re.findall(r"\b(?:if|else|while|for|in|let|mut|match|return|as|true|false)\b|\w+|[^\s\w]+", re.sub(r"\b(?!if|else|while|for|in|let|mut|match|return|as|true|false)[a-z_]\w*", "a", body))


def twins():
    # pairs of functions whose bodies differ in names and numbers at most by a tenth
    all_of = [(p, n, f, shape(b)) for p, n, f, a, c, b in functions() if len(shape(b)) >= 25 and f != "main"]
    found = []
    for i, (p, n, f, s) in enumerate(all_of):
        for q, m, g, t in all_of[i + 1 :]:
            if abs(len(s) - len(t)) <= 0.1 * max(len(s), len(t)):
                ratio = difflib.SequenceMatcher(None, s, t, autojunk=False).ratio()
                if ratio >= 0.9:
                    found.append((p, n, f"{f} / {q}:{m} {g} {ratio:.2f}"))
    return found


def repeated_facts():
    count = collections.defaultdict(list)
    for p, n, f, a, clauses, b in functions():
        seen = set()
        for kind, fact in re.findall(r"(requires|ensures)(?: \w+)? \{ (.*) \}", clauses):
            for part in re.split(r" × ", fact):
                part = part.strip().strip("()")
                if (kind, part) not in seen:
                    seen.add((kind, part))
                    count[(kind, part)].append(f)
    return [(f"{len(v)} functions", 0, f"{k[0]} {k[1]}") for k, v in sorted(count.items(), key=lambda x: -len(x[1])) if len(v) >= 3 and k[0] == "requires"]


def travelling():
    count = collections.defaultdict(set)
    for p, n, f, args, c, b in functions():
        names = [a.split(":")[0].strip().replace("mut ", "") for a in re.split(r",\s*", args) if ":" in a]
        for i in range(len(names)):
            for j in range(i + 1, len(names)):
                count[(names[i], names[j])].add((p, f))
    skip = {"out", "rt"}
    return [(f"{len(v)} functions", 0, " and ".join(k)) for k, v in sorted(count.items(), key=lambda x: -len(x[1])) if len(v) >= 3 and not skip & set(k)]


points = [
    ("1", "enums with a case for nothing or a refusal", own_outcomes()),
    ("1", "structs with a flag beside values", flags_beside_values()),
    ("1", "a refusal tested by its number", lines_with(r"number\(\w+\) (==|!=) 0")),
    ("1", "numbers that stand for nothing or a fault", lines_with(r"\b(step|len|middle|until|most) == 0|16 <= d\b|15 < (high|low)\b")),
    ("1", "numbers for kinds", lines_with(r"^const \w+: u8 = \d+;|^\s+\d+ => Meaning::|^\s+Kind::\w+ => \d+,$")),
    ("2", "functions of one shape", twins()),
    ("3", "while loops", lines_with(r"^\s*while ")),
    ("4", "cases compared or turned to numbers one by one", lines_with(r"^\s+\w+::\w+(\(_\))? => (\d+|true|false),")),
    ("4", "text written piece by piece", lines_with(r"\bio::(write_all|print_decimal)\(")),
    ("5", "facts required by three functions or more", repeated_facts()),
    ("5", "parameters that three functions or more take together", travelling()),
    ("6", "arrays with a length beside", buffers_with_lengths()),
    ("6", "parts of such arrays taken by hand", lines_with(r"&\w+\[\.\.\w*(len|size)\]")),
    ("7", "matches that choose what to run", lines_with(r"^\s+(Kind|Meaning|Step|Role)::\w+(\(\w+\))? => (\w+\(|\{)")),
]
total = collections.Counter()
for point, what, found in points:
    print(f"{point}  {len(found):4}  {what}")
    total[point] += len(found)
    if listing:
        for place, number, text in found:
            print(f"          {place}{':' + str(number) if number else ''}  {text}")
answers = [a for a in root.glob("crates/*/proofs/**/Answers.antt")]
count = sum(len(re.findall(r"(?m)^pub [^:]+ : goal\.", a.read_text())) for a in answers)
print(f"8  {count:4}  answers, in {len(answers)} files")
print("in all: " + ", ".join(f"{k}: {v}" for k, v in sorted(total.items())))
