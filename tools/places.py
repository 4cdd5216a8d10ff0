#!/usr/bin/env python3
"""Counts the places of older forms in the crates of a folder: python3 tools/places.py [-l] [FOLDER]

For each of eight points it prints how many places its search finds; with -l it lists them. A place that is found is to be
looked at: whether it is changed or kept is for a reader to say.
"""
import collections
import pathlib
import re
import sys

KEYWORDS = set("""as break const continue else enum false fn for ghost if impl in let loop match mod mut pub ref return self Self
static struct super trait true type use where while crate requires ensures""".split())
NAME = r"[A-Za-z_][A-Za-z_0-9]*"


def sources(root):
    return sorted(root.glob("crates/*/src/**/*.rt"))


def bare(text):
    """The text without comments and strings, as long as it was."""
    blank = lambda m: re.sub(r"[^\n]", " ", m.group(0))
    return re.sub(r"//[^\n]*|\"(?:[^\"\\]|\\.)*\"", blank, text)


def block(text, start):
    """Where the block that opens at or after start ends."""
    depth = 0
    for at in range(text.index("{", start), len(text)):
        depth += {"{": 1, "}": -1}.get(text[at], 0)
        if depth == 0:
            return at + 1
    return len(text)


class Function:
    def __init__(self, crate, file, line, name, head, body):
        self.crate, self.file, self.line, self.name, self.head, self.body = crate, file, line, name, head, body
        self.signature = re.split(r"\b(?:requires|ensures)\b", head)[0]
        self.clauses = re.findall(r"\b(?:requires|ensures)\s*(?:\w+\s*)?(\{.*?\})\s*(?=requires|ensures|$)", head, re.S)

    def __str__(self):
        return f"{self.file}:{self.line} {self.name}"

    def parameters(self):
        inside = re.search(r"\((.*)\)", self.signature, re.S)
        return re.findall(rf"({NAME}): ([^,]+?)(?:,|$)", " ".join(inside.group(1).split())) if inside else []


def functions(root):
    for path in sources(root):
        text = bare(path.read_text())
        file = str(path.relative_to(root))
        for found in re.finditer(rf"\bfn ({NAME})", text):
            brace = found.end()
            # A clause has braces of its own; the body is the first block after the clauses.
            while True:
                opens = text.find("{", brace)
                if opens < 0 or ";" in re.sub(r"\[[^][]*(?:\[[^][]*\][^][]*)*\]", "", text[brace:opens]):
                    break
                before = text[brace:opens].rstrip()
                if re.search(rf"\b(?:requires|ensures)\s*(?:{NAME})?$", before):
                    brace = block(text, opens)
                    continue
                end = block(text, opens)
                yield Function(file.split("/")[1], file, text.count("\n", 0, found.start()) + 1, found.group(1),
                               text[found.start():opens], text[opens:end])
                break


def lines(root, pattern, keep=lambda text: True):
    for path in sources(root):
        for number, line in enumerate(bare(path.read_text()).split("\n"), 1):
            if re.search(pattern, line) and keep(line):
                yield f"{path.relative_to(root)}:{number} {line.strip()}"


def shape(function):
    """The function with each name blotted out: two of one shape differ in names, types and constants alone."""
    text = function.signature[len("fn " + function.name):] + function.body
    text = re.sub(rf"\b{NAME}(?:::{NAME})*", lambda m: m.group(0) if m.group(0) in KEYWORDS else "n", text)
    return re.sub(r"\s+", "", re.sub(r"\b[0-9][0-9_]*", "0", text))


def point1(root):
    yield from lines(root, r"-> u8\b")
    gives_up = r"let (?:Some|Ok)\([^;]*? else \{\s*(?:return (?:None|false|Err\([^;]*\));|unreachable\(\))|if let Ok\("
    for path in sources(root):
        text = bare(path.read_text())
        for found in re.finditer(gives_up, text):
            line = text.count("\n", 0, found.start()) + 1
            yield f"{path.relative_to(root)}:{line} {' '.join(found.group(0).split())}"


def point2(root):
    groups = collections.defaultdict(list)
    for function in functions(root):
        groups[shape(function)].append(function)
    for same, group in groups.items():
        if len(group) > 1 and len(same) > 26:
            yield " = ".join(str(f) for f in group)


def point3(root):
    yield from lines(root, r"\bwhile \w+ < |\bfor \w+ in [^{]*\.\.|\+= 1;")


def point4(root):
    yield from lines(root, r"\bfn (?:same|equal|before|ahead|kind_name|read|parse)(?:_\w+)?\b|-> &'static str|\bmatch \(\w+(?:\.\w+)?, ")
    for path in sources(root):
        text = path.read_text()
        for found in re.finditer(rf"((?:#\[[^\n]*\]\n)*)pub (?:enum|struct) ({NAME})", text):
            derives, name = found.group(1), found.group(2)
            if name.endswith("Fault") and "Error" not in derives:
                yield f"{path.relative_to(root)} {name}: no Display"
            if "Copy" in derives and "PartialEq" not in derives:
                yield f"{path.relative_to(root)} {name}: no =="


def point5(root):
    clauses, groups = collections.defaultdict(set), collections.defaultdict(set)
    for function in functions(root):
        for clause in function.clauses:
            text = re.sub(rf"\b{NAME}\.(old|new|now)\b", r"x.\1", " ".join(clause.split()))
            clauses[function.crate, text].add(str(function))
        parameters = function.parameters()
        for i in range(len(parameters)):
            for j in range(i + 1, len(parameters)):
                for k in range(j + 1, len(parameters)):
                    groups[function.crate, (parameters[i], parameters[j], parameters[k])].add(str(function))
    for (crate, text), where in sorted(clauses.items()):
        if len(where) >= 3:
            yield f"{crate}: {len(where)} functions say {text}"
    seen = set()
    for (crate, three), where in sorted(groups.items(), key=str):
        if len(where) >= 2 and (crate, tuple(sorted(where))) not in seen:
            seen.add((crate, tuple(sorted(where))))
            yield f"{crate}: {', '.join(p[0] for p in three)} together in {len(where)}: {', '.join(sorted(where))}"


def point6(root):
    yield from lines(root, r"\.get\(\w+(?:\.\w+)?\) else|\w\[\w+(?:\.\w+)?\]", lambda line: "#[" not in line)
    yield from lines(root, r"^\s*return (?:true|Some)")


def point7(root):
    yield from lines(root, r"\bdyn |Box<dyn|: fn\(")


def point8(root):
    proofs = {p: p.read_text() for p in sorted(root.glob("crates/*/proofs/**/*.antt")) + sorted(root.glob("crates/*/specs/*.antt"))}
    code = "\n".join(bare(p.read_text()) for p in sources(root))
    words = collections.Counter()
    for text in proofs.values():
        body = re.sub(r"^use .*$|--.*$", "", text, flags=re.M)
        words.update(re.findall(r"[A-Za-z_][\w'-]*", body))
    for path, text in proofs.items():
        name = str(path.relative_to(root))
        if path.name == "Answers.antt":
            for line, count in collections.Counter(re.findall(r"^ +let .*$", text, re.M)).items():
                if count > 2:
                    yield f"{name}: {count} times {line.strip()}"
        elif "/proofs/" in name and path.name not in ("Invariants.antt", "Lib.antt") or name.endswith("Lemmas.antt"):
            for margin, lemma in re.findall(r"^( *)(?:pub |abbrev |unfoldable )*([A-Za-z_][\w'-]*) :(?!:)", text, re.M):
                own = len(re.findall(rf"^{margin}(?:pub |abbrev |unfoldable )*{re.escape(lemma)}(?![\w'-])", text, re.M))
                if words[lemma] <= own and not re.search(rf"(?<![\w'-]){re.escape(lemma)}(?![\w'-])", code):
                    yield f"{name}: nothing cites {lemma}"


def main():
    words = sys.argv[1:]
    listed = "-l" in words
    root = pathlib.Path(next((w for w in words if w != "-l"), "."))
    for number, point in enumerate((point1, point2, point3, point4, point5, point6, point7, point8), 1):
        found = list(point(root))
        print(f"{number}. {len(found)}")
        if listed:
            for place in found:
                print("   ", place)


main()
