#!/usr/bin/env python3
"""Lists the places in src/ that the design pass counts, a line each: point and kind, file:line, text.

    python3 tools/places.py [FOLDER [POINT]]     FOLDER: a checkout, here if left out; POINT: 1 to 8, all if left out
    python3 tools/places.py --count [FOLDER]     how many there are of each kind

It goes by text and finds more than it should: docs/DESIGN-PASS.md says of each place what became of it.
"""
import difflib, glob, os, re, sys

LINES = [
    ("1 own enum", r"^\s*(pub )?enum \w+"),
    ("1 error passed on by hand", r"Err\(\w+\) => (return )?(Err\(|Err\(\w+::)"),
    ("1 none passed on by hand", r"None => (return )?(None|Ok\(None\)|Ok\(false\)|0|Ok\(0\)),|^\s*return None;"),
    ("1 flag", r"\(\w+, bool\)|^\s*let mut \w+ = (true|false);"),
    ("1 attempt answered by a bool", r"fn \w+\(.*&mut .*-> bool"),
    ("1 number for a kind or refusal", r"\b(mark|side|number): u8\b|\(u8\),$|Result<u32, Fault>|\.number\(\) [=!]= |fn number\(self\)"),
    ("1 number for none", r"// .*(\b0 where|or the length where|or that behind all|; 0 |0 for none)|, 0 where| is 0;|says that there is none"),
    ("3 counted index", r"^\s*for \w+ in [^{]*\.\.|^\s*(while|loop)\b"),
    ("3 search, count or fold by hand", r"^\s*for [^{]* in (?!.*\.\.)"),
    ("4 equality or order by hand", r"fn (compare|cmp|eq|same\w*|is_for|says_same|is_content|is|holds)\("),
    ("4 conversion by hand", r"fn (number|read|bytes|mark_in|new)\((self|&self|number: u8|bytes: |text: |prefix: |decline: )"),
    ("4 printing by hand", r"fn add_\w+\("),
    ("6 array with a length beside", r"\[[\w:()]+; [\w]+\]"),
    ("6 length kept beside", r"^\s*(pub )?(length|count): (u8|usize),|&mut \[\w+\][^)]*\) -> (Result<)?usize"),
    ("6 index in place of a value", r"\b(document|slot|at|place): (Option<)?(u8|usize)\b"),
    ("7 step or table of functions", r": fn\(|\bdyn |match (self\.)?(step|phase|state)\b"),
]


def sources(folder):
    return sorted(glob.glob(os.path.join(folder, "crates/*/src/*.rt")))


def by_line(folder):
    for path in sources(folder):
        for n, line in enumerate(open(path), 1):
            for kind, pattern in LINES:
                if re.search(pattern, line):
                    yield kind, os.path.relpath(path, folder), n, line.strip()


def functions(path):
    text = open(path).read()
    for m in re.finditer(r"^([ ]*)(pub )?(const )?fn (\w+)", text, re.M):
        end = re.compile(r"^%s\}" % m.group(1), re.M).search(text, m.end())
        semi = text.find(";", m.end())
        brace = re.compile(r"^%s\{" % m.group(1), re.M).search(text, m.end())
        if end and (brace and brace.start() < end.end() or "{" in text[m.end() : end.start()].split("\n")[0]):
            whole = text[m.start() : end.end()]
            if semi != -1 and brace and semi < brace.start() and "\n\n" in text[semi : brace.start()]:
                continue
            yield m.group(4), text.count("\n", 0, m.start()) + 1, whole


def shape(body):
    body = re.sub(r"//[^\n]*", "", body)
    body = body[body.index("\n") if "\n" in body else 0 :]
    code = re.sub(r"^\s*(requires|ensures).*$", "", body, flags=re.M)
    kept = {"for", "in", "if", "else", "match", "return", "let", "mut", "None", "Some", "Ok", "Err", "as", "self", "true", "false"}
    return " ".join(t if t in kept or not re.match(r"\w", t) else "x" for t in re.findall(r"\w+|[^\w\s]", code))


def twins(folder):
    found = []
    for path in sources(folder):
        if "/checks/" in path or "/limits/" in path:
            continue
        for name, n, whole in functions(path):
            s = shape(whole).split()
            if len(s) >= 20:
                found.append((os.path.relpath(path, folder), n, name, s))
    for i, (path, n, name, s) in enumerate(found):
        for other, m, twin, t in found[i + 1 :]:
            alike = difflib.SequenceMatcher(None, s, t, autojunk=False).ratio()
            if alike >= 0.82:
                yield "2 functions of nearly the same shape", path, n, "%s like %s (%s:%d), %.2f" % (name, twin, other, m, alike)


def repeated(folder):
    facts, pairs = {}, {}
    for path in sources(folder):
        for name, n, whole in functions(path):
            for m in re.finditer(r"(requires|ensures)\*? ?\w* \{ (.*) \}", whole):
                for fact in re.split(r" × ", m.group(2)):
                    fact = re.sub(r"\bself\b|\btables\b|\bdevice\b", "x", fact.strip("() "))
                    facts.setdefault(fact, set()).add((os.path.relpath(path, folder), n, name))
            m = re.match(r"[^(]*(?:<[^(]*>)?\(([^)]*)\)", whole, re.S)
            names = sorted(set(re.findall(r"(\w+): ", m.group(1)))) if m else []
            for i, a in enumerate(names):
                for b in names[i + 1 :]:
                    pairs.setdefault((a, b), set()).add((os.path.relpath(path, folder), n, name))
    for fact, where in sorted(facts.items()):
        for path, n, name in sorted(where) if len(where) >= 3 and len(fact) > 12 else []:
            yield "5 fact in %d contracts" % len(where), path, n, name + ": " + fact
    for (a, b), where in sorted(pairs.items()):
        for path, n, name in sorted(where) if len(where) >= 4 else []:
            yield "5 parameters together in %d functions" % len(where), path, n, name + ": " + a + ", " + b


def proofs(folder):
    for path in sorted(glob.glob(os.path.join(folder, "crates/*/proofs/**/*.antt"), recursive=True)):
        for n, line in enumerate(open(path), 1):
            if re.match(r"(abbrev )?(pub )?[\w'+-]+ :( |$)", line) and not line.startswith("use"):
                answer = os.path.basename(path) in ("Answers.antt", "Invariants.antt", "Proof.antt")
                yield "8 answer" if answer else "8 lemma", os.path.relpath(path, folder), n, line.strip()[:80]


def main():
    args = [a for a in sys.argv[1:] if a != "--count"]
    folder = args[0] if args else "."
    point = args[1] if len(args) > 1 else ""
    places = [p for part in (by_line, twins, repeated, proofs) for p in part(folder) if p[0].startswith(point)]
    if "--count" in sys.argv:
        counts = {}
        for kind, *_ in places:
            kind = re.sub(r"in \d+ (contracts|functions)", r"in several \1", kind)
            counts[kind] = counts.get(kind, 0) + 1
        for kind in sorted(counts):
            print("%5d  %s" % (counts[kind], kind))
    else:
        for kind, path, n, text in sorted(places):
            print("%s\t%s:%d\t%s" % (kind, path, n, text))


if __name__ == "__main__":
    main()
