#!/usr/bin/env python3
"""Lists the places in crates/*/src where an older form may stand, point by point.

    python3 tools/count-places.py [POINT]

The lists are of candidates: docs/DESIGN-PASS.md says of each what became of it.
"""
import collections
import pathlib
import re
import sys

ROOT = pathlib.Path(__file__).resolve().parent.parent
FILES = sorted(ROOT.glob("crates/*/src/**/*.rt"))


def code_lines(path):
    """The numbered lines of a file without comments and ghost imports."""
    for number, line in enumerate(path.read_text().splitlines(), 1):
        if not line.lstrip().startswith(("//", "ghost use")):
            yield number, line


def balanced(text, start):
    """The place after the bracket that closes the one at `start`."""
    depth = 0
    for place in range(start, len(text)):
        depth += text[place] in "{(["
        depth -= text[place] in "})]"
        if depth == 0:
            return place + 1
    return len(text)


class Function:
    def __init__(self, path, text, match):
        self.name = match.group(1)
        self.where = f"{path.relative_to(ROOT / 'crates')}:{text.count(chr(10), 0, match.start()) + 1}"
        open_at = text.index("(", match.end() - 1)
        close_at = balanced(text, open_at)
        self.parameters = re.sub(r"\s+", " ", text[open_at + 1 : close_at - 1])
        self.clauses, place = [], close_at
        while True:
            rest = re.compile(r"[{;]").search(text, place)
            if rest is None or rest.group() == ";":
                self.body = ""
                return
            head = re.search(r"\b(requires|ensures)\*?\s*(\w*)\s*$", text[place : rest.start()])
            end = balanced(text, rest.start())
            inside = text[rest.start() + 1 : end - 1].strip()
            if head is None:
                self.body = inside
                return
            self.clauses.append((head.group(1), re.sub(r"\s+", " ", inside)))
            place = end


def functions():
    for path in FILES:
        text = "\n".join(
            "" if line.lstrip().startswith("//") else line for line in path.read_text().splitlines()
        )
        for match in re.finditer(r"\bfn (\w+)[<(]", text):
            yield Function(path, text, match)


def grep(pattern):
    found = re.compile(pattern)
    for path in FILES:
        for number, line in code_lines(path):
            if found.search(line):
                yield f"{path.relative_to(ROOT / 'crates')}:{number}: {line.strip()}"


def shape(body):
    """A body with every name, number and text replaced by its kind."""
    body = re.sub(r'b?"(\\.|[^"])*"|b?\'(\\.|[^\'])\'', "T", body)
    body = re.sub(r"\b(?!(?:if|else|match|for|while|let|return|mut|as|in)\b)[A-Za-z_]\w*", "N", body)
    return re.findall(r"\w+|[^\s\w]", re.sub(r"\b\d[\d_]*\b", "0", body))


def twins():
    groups = collections.defaultdict(list)
    for function in functions():
        tokens = shape(function.body)
        if len(tokens) >= 14:
            groups[tuple(tokens)].append(f"{function.where} {function.name}")
    return (" | ".join(group) for group in groups.values() if len(group) > 1)


def repeated_facts():
    users = collections.defaultdict(set)
    for function in functions():
        for kind, clause in function.clauses:
            for part in re.split(r" → | × ", clause):
                if re.search(r"[≤<≡]|^[A-Z]\w+ \w", part) and "result" not in part:
                    users[(kind, re.sub(r"\.(now|old|new|entry)\b", "", part))].add(function.where)
    for (kind, fact), places in sorted(users.items()):
        if len(places) >= 3:
            yield f"{kind} {fact}: {len(places)} functions"


def travelling_parameters():
    users = collections.defaultdict(set)
    for function in functions():
        parts = re.split(r", (?![^<(\[]*[>)\]])", function.parameters)
        names = sorted(p.strip(" ,") for p in parts if ":" in p)
        for i, first in enumerate(names):
            for second in names[i + 1 :]:
                users[(first, second)].add(f"{function.where} {function.name}")
    for (first, second), places in sorted(users.items()):
        if len(places) >= 3:
            yield f"{first}, {second}: {', '.join(sorted(places))}"


def proofs():
    for crate in sorted((ROOT / "crates").iterdir()):
        files = sorted(crate.glob("proofs/**/*.antt"))
        if files:
            answers = sum(f.name == "Answers.antt" for f in files)
            lines = sum(len(f.read_text().splitlines()) for f in files)
            lemmas = len(list(crate.glob("proofs/*.antt"))) - 1
            yield f"{crate.name}: {lines} lines, {answers} files of answers, {max(lemmas, 0)} files of lemmas"


POINTS = {
    1: [
        ("an answer that is an error or nothing", lambda: grep(r"-> Option<Fault>|-> u8$|-> u8 \{")),
        ("an error passed on by hand", lambda: grep(r"(Err\(\w+\)|None) => (return )?(Err\(|Some\(|None)|Ok\((\(\)|\w+)\) => (Ok\(|\w+,)|return Err\(|let .* else \{$|if let (Some|Err)\(")),
        ("a number, a flag or an end in place of a case", lambda: grep(r"usize::MAX|from: 0|\w+ [!=]= 0\b|\[bool; |fn number\(|fn of\(|fn letter\(")),
        ("an enum with a case of refusal", lambda: grep(r"^\s+(Refused|NoRoom|OutOfMemory|NoMemory)\b.*,$")),
    ],
    2: [("functions of one shape", twins)],
    3: [("loops", lambda: grep(r"^\s*('\w+: )?(for|while|loop)\b")), ("counting by hand", lambda: grep(r"[+-]= 1;|saturating_add\(1\)"))],
    4: [
        ("operators, conversions and printing", lambda: grep(r"\bimpl\b.*\b(Add|Sub|From|TryFrom|Display|PartialEq|Ord|Clone)\b.* for |fn (same|of|named|name|number|letter|is_before|is_at|count_figures|write_figures|tell\w*)\(")),
        ("types without derives of equality", lambda: grep(r"#\[derive\((?!.*PartialEq)")),
    ],
    5: [("facts in three contracts or more", repeated_facts), ("parameters that travel together", travelling_parameters)],
    6: [
        ("arrays, and lengths beside them", lambda: grep(r"\[[\w<>]+; ?\w+\]|^\s+(pub(\(crate\))? )?(count|len): usize,")),
        ("several vectors", lambda: grep(r"Vec<|Vec::new")),
    ],
    7: [("choices of what to run", lambda: grep(r"=> [a-z_]+\(.*\)\??,$|\bfn\(|\bdyn\b|impl Fn|: Fn(Mut|Once)?\("))],
    8: [("proofs", proofs)],
}


def main():
    wanted = [int(a) for a in sys.argv[1:]] or sorted(POINTS)
    for point in wanted:
        for title, find in POINTS[point]:
            places = list(find())
            print(f"{point}. {title}: {len(places)}")
            for place in places:
                print(f"    {place}")


main()
