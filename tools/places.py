#!/usr/bin/env python3
"""Lists the places of older forms in the sources, point by point, as docs/DESIGN-PASS.md counts them.

usage: tools/places.py [COMMIT]     of the working tree, or of a commit

A row is a place to look at, not a verdict: some of them are the plainest form, and the page says which and why.
Tests are left out. Points 1 to 7 read crates/*/src, point 8 the proofs.
"""
import collections
import pathlib
import re
import subprocess
import sys

ROOT = pathlib.Path(__file__).resolve().parent.parent


def read(commit):
    """The files of crates/ by their paths."""
    if not commit:
        paths = sorted((ROOT / "crates").glob("*/**/*"))
        return {str(p.relative_to(ROOT)): p.read_text() for p in paths if p.suffix in (".rt", ".antt") and "/out/" not in str(p)}
    names = subprocess.run(["git", "ls-tree", "-r", "--name-only", commit, "crates"], cwd=ROOT, capture_output=True, text=True, check=True)
    names = [n for n in names.stdout.split("\n") if n.endswith((".rt", ".antt"))]
    return {n: subprocess.run(["git", "show", f"{commit}:{n}"], cwd=ROOT, capture_output=True, text=True, check=True).stdout for n in names}


def lines_like(files, pattern):
    """Each line of code that has the pattern."""
    found = []
    for path, text in files.items():
        for number, line in enumerate(text.split("\n"), 1):
            if re.search(pattern, line) and not line.lstrip().startswith("//"):
                found.append(f"{path}:{number}: {line.strip()[:100]}")
    return found


# A head ends in the first `{` at the end of a line, and has no empty line.
FUNCTION = re.compile(r"^([ \t]*)(?:pub(?:\(crate\))? )?(?:extern \"C\" )?fn (\w+)((?:(?!\n\n|\{\n).)*)\{\n(.*?)^\1\}", re.M | re.S)


def functions(files):
    """Each function as (path, name, head, body)."""
    for path, text in files.items():
        for m in FUNCTION.finditer(text):
            yield path, m.group(2), m.group(3), m.group(4)


def shape(body):
    """A body without its names, texts and numbers."""
    body = re.sub(r"//.*", "", body)
    body = re.sub(r'b?"[^"]*"|b?\'[^\']*\'|\b\d[\d_]*\b', "0", body)
    body = re.sub(r"\b(?!(?:if|else|match|for|while|let|mut|return|in|loop|Some|None|Ok|Err|true|false)\b)[A-Za-z_]\w*", "x", body)
    return re.sub(r"\s+", " ", body).strip()


def twins(files):
    """Functions of three lines and more whose bodies differ in names, texts and numbers alone."""
    groups = collections.defaultdict(list)
    for path, name, _, body in functions(files):
        if body.count("\n") >= 3:
            groups[shape(body)].append(f"{path}: {name}")
    return [" ~ ".join(g) for g in groups.values() if len(g) > 1]


def repeated_facts(files):
    """What three functions and more of a crate require, or promise."""
    facts = collections.Counter()
    for path, _, head, _ in functions(files):
        crate = path.split("/")[1]
        facts.update({(crate, word, fact) for word, fact in re.findall(r"(requires|ensures) (?:\w+ )?\{ (.*?) \}\n", head)})
    return [f"{n} functions of {crate}: {word} {fact}" for (crate, word, fact), n in facts.items() if n >= 3]


def travelling(files):
    """Pairs of parameters that stand side by side in three functions and more of a crate."""
    pairs = collections.defaultdict(set)
    for path, name, head, _ in functions(files):
        params = re.findall(r"(\w+): (&?(?:'\w+ )?(?:mut )?[\w<>'\[\], ]+?)(?=,|\)|\n)", head.split(") ")[0] + ")")
        for a, b in zip(params, params[1:]):
            pairs[path.split("/")[1], a, b].add(f"{path}: {name}")
    return [f"{len(where)} functions of {crate} take {a[0]}: {a[1]} and {b[0]}: {b[1]}" for (crate, a, b), where in pairs.items() if len(where) >= 3]


def main():
    files = read(sys.argv[1] if len(sys.argv) > 1 else None)
    code = {p: t for p, t in files.items() if "/src/" in p and not p.endswith("tests.rt")}
    answers = {p: t for p, t in files.items() if p.endswith("Answers.antt")}
    proofs = {p: t for p, t in files.items() if "/proofs/" in p}
    conversion = r"fn (?:\w*_number|number|level|letter|from_letter|run_of_\w+|keyword_of|\w+_keyword|kind_of\(word|digit\w*|push_\w+|add_digits|signed_\w+|\w+_lines\(refusal|write_refusal|tri_of|digit_value)\b"
    points = [
        ("1 Option<()> for a refusal", lines_like(code, r"-> Option<\(\)>")),
        ("1 enums with a case for nothing or for a refusal", lines_like(code, r"^\s+(Ended|Wrong|Nothing|Amiss|Unset|NotSet|DoesNotRead|Empty),")),
        ("1 a bool for what a change came to", lines_like(code, r"fn .*&mut .*-> bool")),
        ("1 a flag beside a value", lines_like(code, r"^\s+(pub )?\w+: bool,")),
        ("1 a result thrown away", lines_like(code, r"\blet _ =")),
        ("1 a value for what cannot be", lines_like(code, r"unreachable\(\)|=> (Value::Tri\()?Tri::No\)?,$|return \(Tri::No, |^\s+(false|Value::Tri\(Tri::No\))$|(unwrap_or|map_or)\((Value::Tri\()?(Tri::No|Kind::\w+|zero_of|&\[\])|=> zero_of|=> value,$")),
        ("2 twins", twins(code)),
        ("3 loops", lines_like(code, r"^\s*(while |loop \{|for \w+ in \S*\.\.)")),
        ("3 searches by a loop", lines_like(code, r"return (Some\()?(i|end|len)\)?;")),
        ("4 equality and order", lines_like(code, r"fn (is|same\w*|is_and|is_or|is_above|is_below|is_no)\(|\b(same|is_no|is_above)\(|\.is\(kind\)|\.is\(other\)")),
        ("4 conversion and printing", lines_like(code, conversion)),
        ("4 a limit as a number", lines_like(code, r"const \w+: \w+ = [\d_]+;|[<;] ?(256|1024|2048|130|64|40)\b[>\]]|[<>]=? 256")),
        ("5 facts in the clauses of three functions", repeated_facts(code)),
        ("5 parameters that travel together", travelling(code)),
        ("5 a list behind a function in clauses", lines_like(code, r"(ensures|requires).*\b(held|spelling|content|val_of)\b")),
        ("6 arrays with a length beside", lines_like(code, r"^\s+\w+: \[\w+; \w+\],")),
        ("6 indices into tables", lines_like(code, r"^\s+(pub )?\w+: (Option<)?(u16|usize)>?,|[a-z]\[[a-z_]\w*\]")),
        ("7 a switch on what to do", lines_like(code, r"fn \w+.*\b(run: Run|extent: Extent|raise: Raise|how: Raise|keyword: \w*Keyword)\b|\bdyn\b|\bfn\(")),
    ]
    for title, found in points:
        print(f"{title}: {len(found)}")
        for row in found:
            print(f"    {row}")
    count = sum(t.count("\n") for t in proofs.values())
    kept = sum(len(re.findall(r"^pub \S+ :", t, re.M)) for t in answers.values())
    lemmas = sum(len(re.findall(r"^(?:  )?(?:pub )?[\w-]+ :(?!=)", t, re.M)) for p, t in proofs.items() if not p.endswith(("Answers.antt", "Invariants.antt")))
    print(f"8 proofs: {count} lines, {len(answers)} files of answers with {kept} answers, {lemmas} lemmas")


main()
