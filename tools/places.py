#!/usr/bin/env python3
"""tools/places.py [-l] [COMMIT]  Counts, in crates/*/src and crates/*/proofs, the places that docs/DESIGN-PASS.md speaks of: of the files as they stand, or of
those of a commit. With -l each place is listed. The rows are those of the page; what a row counts is said beside its function."""
import collections
import re
import subprocess
import sys

ROOT = subprocess.run(["git", "rev-parse", "--show-toplevel"], capture_output=True, text=True, check=True).stdout.strip()


def files(commit):
    """The .rt and .antt files: path and text."""
    if commit is None:
        names = subprocess.run(["git", "ls-files", "--cached", "--others", "--exclude-standard", "crates"], cwd=ROOT, capture_output=True, text=True, check=True).stdout.split()
    else:
        names = subprocess.run(["git", "ls-tree", "-r", "--name-only", commit, "crates"], cwd=ROOT, capture_output=True, text=True, check=True).stdout.split()
    names = [n for n in names if re.match(r"crates/\w+/(src/.*\.rt|proofs/.*\.antt)$", n)]
    if commit is None:
        for n in names:
            try:
                yield n, open(f"{ROOT}/{n}", encoding="utf-8").read()
            except FileNotFoundError:
                pass
        return
    asked = "\n".join(f"{commit}:{n}" for n in names) + "\n"
    out = subprocess.run(["git", "cat-file", "--batch"], cwd=ROOT, input=asked.encode(), capture_output=True, check=True).stdout
    at = 0
    for n in names:
        end = out.index(b"\n", at)
        size = int(out[at:end].split()[2])
        yield n, out[end + 1:end + 1 + size].decode()
        at = end + 1 + size + 1


def bare(text):
    """A source text without its comments."""
    return re.sub(r"//[^\n]*", "", text)


GOOD = "Taken Done Known Written Allowed Granted Accepted Built Gives Said Whole Sayable Typed All Words Passed Takes One".split()
BAD = "Refused Bad Unknown Unsound NoRoom Malformed Unsaid Denied Ends TooLong Refuses Misread".split()


def own_shapes(path, text):
    """1: an enum with a variant that stands for success and one for its failing."""
    for m in re.finditer(r"\benum (\w+) \{(.*?)\n\}", text, re.S):
        variants = re.findall(r"^    (\w+)", m[2], re.M)
        if set(variants) & set(GOOD) and set(variants) & set(BAD):
            yield m[1]


def flags_beside(path, text):
    """1: a struct with a field that says whether the others mean anything, or whether a walk goes on."""
    for m in re.finditer(r"\bstruct (\w+)(?:<[^>]*>)? \{(.*?)\n\}", text, re.S):
        if re.search(r"\b(sound|done|whole|good|found): bool", m[2]):
            yield m[1]


def handed_on(path, text):
    """1: an arm that hands a refusal on, as `?` would."""
    for m in re.finditer(r"^ *[\w:]*::(%s)(?:\(.*\))? => .*(?:refused|::(?:%s))" % ("|".join(BAD), "|".join(BAD)), text, re.M):
        yield m[0].strip()
    for m in re.finditer(r"^ *Err\((\w+)\) => (?:return )?Err\(\1\)", text, re.M):
        yield m[0].strip()


def numbers_for(path, text):
    """1: a constant that is a number for a refusal, for none or for a state."""
    for m in re.finditer(r"\bconst (NONE|NO_ROOM|UNSOUND|DARK|FLAG_FORBIDDEN|FLAG_MISSING|TOO_LONG|TOO_MANY): \w+ = ", text):
        yield m[1]


def whiles(path, text):
    """3: a loop by hand."""
    for m in re.finditer(r"\bwhile [^{]*", text):
        yield m[0].strip()


def truths(path, text):
    """4: a bare `return true`, `return false`, or an `if` of them."""
    for m in re.finditer(r"return (true|false);|\{ (true|false) \} else|else \{ (true|false) \}|else \{\n *(true|false)\n", text):
        yield m[0].strip()


def copied_out(path, text):
    """4: a field copied into a name of its own before it is used."""
    for m in re.finditer(r"\blet (?:mut )?(\w+)(?:: \w+)? = (?:\w+\.)+(\w+);", text):
        yield m[0]


def converted(path, text):
    """4: a function that does nothing but convert between number types, or tell one variant from the others."""
    for m in re.finditer(r"\bfn (\w+)\([^)]*\) -> [^{]*?\{\n    \(?\w+(?: % \w+)?\)? as \w+\n\}", text):
        yield m[1]
    for m in re.finditer(r"\bfn (\w+)\([^)]*\) -> bool[^{]*(?:\{[^{}]*\}[^{]*)*\{\n    if let [^{]*\{\s*true\s*\} else \{\s*false\s*\}\n\}", text):
        yield m[1]


def buffers(path, text):
    """6: a lent buffer with the place or the number that goes beside it, as parameters."""
    for m in re.finditer(r"\bfn (\w+)(?:<[^>]*>)?\(([^)]*)\)", text):
        if re.search(r"\b(room|out|buffer): &mut \[u\d+\],? (?:\n *)?(at|used|pos|next): usize", re.sub(r"\s+", " ", m[2])):
            yield m[1]


def parallel(path, text):
    """6: a struct with arrays of the same length side by side, or an array with its length."""
    for m in re.finditer(r"\bstruct (\w+)(?:<[^>]*>)? \{(.*?)\n\}", text, re.S):
        lengths = re.findall(r": \[[^;\]]+; (\w+)\]", m[2])
        if len(lengths) != len(set(lengths)) or (lengths and re.search(r"\b(count|used|size): ", m[2])):
            yield m[1]


def dispatch(path, text):
    """7: a `match` of four arms or more on a number or a letter, in which each arm is a call."""
    for m in re.finditer(r"match [^{]*\{\n((?: +(?:b?'.'|b?\"[^\"]*\"|\d+|[A-Z_]+) => [\w:.]+\(.*\),?\n){4,})", text):
        yield m[0].split("\n")[0]


def clauses(path, text):
    """(5) the clauses of a file's functions."""
    for m in re.finditer(r"^ *(?:requires|ensures)(?: \w+)? \{ (.*) \}$", text, re.M):
        yield m[1]


def parameters(path, text):
    """(5) three and more parameters that stand side by side."""
    for m in re.finditer(r"\bfn (\w+)(?:<[^>]*>)?\(([^)]*)\)", text):
        names = [p.strip() for p in re.sub(r"\s+", " ", m[2]).split(",") if ":" in p]
        for k in range(len(names) - 2):
            yield tuple(names[k:k + 3])


def shape(body):
    """A function's text with its names and numbers left out."""
    body = re.sub(r"\b(?:if|else|match|while|for|in|let|mut|return|fn|as|self|true|false|impl|pub|continue|break)\b", lambda m: "\0" + m[0] + "\0", body)
    parts = re.split(r"(\0\w+\0)", body)
    return "".join(p if p.startswith("\0") else re.sub(r"[A-Za-z_]\w*|\d\w*|'.'", "n", p) for p in parts)


def functions(text):
    for m in re.finditer(r"^( *)(?:pub(?:\(crate\))? )?fn (\w+).*?\n\1\}", text, re.M | re.S):
        body = m[0][m[0].find("\n" + m[1] + "{"):] if "\n" + m[1] + "{" in m[0] else m[0][m[0].find("{"):]
        yield m[2], m[0], body


def twins(texts):
    """2: functions of sixty characters and more that are the same but for names and numbers, whatever their crates."""
    groups = collections.defaultdict(list)
    for path, text in texts:
        for name, whole, body in functions(bare(text)):
            if len(re.sub(r"\s", "", body)) >= 60:
                key = re.sub(r"\s+", "", shape(whole))
                groups[key].append(f"{path}: {name}")
    return [g for g in groups.values() if len(g) > 1]


def main():
    argv = [a for a in sys.argv[1:] if a != "-l"]
    listed = "-l" in sys.argv
    texts = list(files(argv[0] if argv else None))
    sources = [(p, t) for p, t in texts if p.endswith(".rt")]
    proofs = [(p, t) for p, t in texts if p.endswith(".antt")]
    rows = [
        ("1  own enums in the shape of Option or Result", own_shapes), ("1  a flag with a value beside it", flags_beside), ("1  refusals handed on by hand", handed_on),
        ("1  numbers for refusals, none or states", numbers_for), ("3  while", whiles), ("4  bare true and false", truths), ("4  fields copied out", copied_out),
        ("4  conversions and tests of one variant by hand", converted), ("6  a buffer and its place as two parameters", buffers), ("6  parallel arrays, arrays with a length", parallel),
        ("7  a match of calls on a tag", dispatch),
    ]
    for label, row in rows:
        found = [(p, place) for p, t in sources for place in row(p, bare(t))]
        print(f"{len(found):5}  {label}")
        if listed:
            for p, place in found:
                print(f"         {p}: {place}")
    groups = twins(sources)
    print(f"{sum(len(g) for g in groups):5}  2  functions that differ only in names and numbers, in {len(groups)} groups")
    if listed:
        for g in groups:
            print("         " + "; ".join(g))
    for label, row in (("5  clauses that stand in three contracts and more", clauses), ("5  three parameters side by side in three functions and more", parameters)):
        count = collections.Counter()
        for p, t in sources:
            count.update((p.split("/")[1], c) for c in row(p, bare(t)))
        many = {k: n for k, n in count.items() if n > 2}
        print(f"{len(many):5}  {label}")
        if listed:
            for k, n in sorted(many.items(), key=lambda x: -x[1]):
                print(f"         {n} times in {k[0]}: {k[1]}")
    answers = [p for p, t in proofs if re.search(r"/(Answers|Proof)\.antt$", p)]
    lines = sum(t.count("\n") for p, t in proofs)
    print(f"{len(answers):5}  8  functions with answers of their own; {lines} lines of proofs, {sum(t.count(chr(10)) for p, t in sources)} of src")


main()
