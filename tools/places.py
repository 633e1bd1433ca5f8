#!/usr/bin/env python3
"""Counts, over crates/*/src, the places that docs/DESIGN-PASS.md speaks of; run it at the top.

    places.py            a line for each kind of place, with how many there are
    places.py KIND ..    the places of these kinds, one a line (1a, 3a ..)
"""
import collections, glob, re, sys

SRC = sorted(glob.glob("crates/*/src/**/*.rt", recursive=True))
ANTT = [f for f in sorted(glob.glob("crates/*/**/*.antt", recursive=True)) if "/out/" not in f]
KEPT = "// Stays: "


def read(f):
    with open(f, encoding="utf-8") as o:
        return o.read()


def lines(pattern, without=None):
    """each place on a line of code at which the pattern is found"""
    out = []
    for f in SRC:
        for i, l in enumerate(read(f).split("\n"), 1):
            code = l.split("//")[0]
            if without and re.search(without, code):
                continue
            out += [f"{f}:{i}: {l.strip()}" for _ in re.finditer(pattern, code)]
    return out


def enums():
    """every enum with its variants: those with no value, those with one"""
    for f in SRC:
        for m in re.finditer(r"(?m)^(?:pub(?:\([a-z]+\))? )?enum (\w+)[^{]*\{\n((?:.*\n)*?)\}", read(f)):
            body = [l.strip() for l in m[2].split("\n") if l.strip() and not l.strip().startswith("//")]
            bare = [l for l in body if re.fullmatch(r"[A-Z]\w*(?: = .*)?,", l)]
            full = [l for l in body if re.match(r"[A-Z]\w*(?:\(| \{)", l)]
            yield f, m[1], bare, full


def result_shaped():
    return [f"{f}: {n}" for f, n, bare, full in enums() if any(re.match(r"Refused\(|Err\(|Broken\(", l) for l in full) and len(bare) + len(full) == 2]


def option_shaped():
    return [f"{f}: {n}" for f, n, bare, full in enums() if len(bare) == 1 and len(full) == 1 and f"{f}: {n}" not in result_shaped()]


def own_uses():
    names = {x.split(": ")[1] for x in result_shaped() + option_shaped()}
    return lines(r"\b(?:" + "|".join(sorted(names)) + r")::[A-Z]\w*") if names else []


BODY = re.compile(r"^ *(?:pub(?:\(\w+\))? )?(?:extern \"C\" )?fn (\w+).*?\n( *)\{\n(.*?)\n\2\}", re.M | re.S)
WORDS = "let mut if else while loop match return for in as".split()


def alike():
    """functions of more than one line whose bodies are the same but for names"""
    groups = collections.defaultdict(list)
    for f in SRC:
        for m in BODY.finditer(read(f)):
            n = {}
            s = re.sub(r"\w+", lambda t: t[0] if t[0] in WORDS else "#%d" % n.setdefault(t[0], len(n)), re.sub(r"//.*", "", m[3]))
            if s.count("\n") > 1:
                groups[" ".join(s.split())].append(f.split("/")[1] + "::" + m[1])
    return [" ".join(g) for g in sorted((g for g in groups.values() if len(g) > 1), key=len, reverse=True)]


def parameters():
    """pairs of parameters that stand together in nine functions or more"""
    count = collections.Counter()
    for f in SRC:
        for m in re.finditer(r"\bfn \w+[^(]*\(([^)]*)\)", read(f)):
            p = sorted({" ".join(x.split()).replace("'a ", "") for x in m[1].split(",") if ":" in x})
            count.update((a, b) for i, a in enumerate(p) for b in p[i + 1:])
    return ["%d %s, %s" % (n, *k) for k, n in count.most_common() if n >= 9]


def required():
    """facts that the `requires` of three functions or more ask"""
    count = collections.Counter(l.strip() for f in SRC for l in read(f).split("\n") if l.strip().startswith("requires"))
    return ["%d %s" % (n, k) for k, n in count.most_common() if n >= 3]


def uncited():
    """laws of proofs/ and specs/ that no other law, answer or attribute cites"""
    words = collections.Counter()
    for f in ANTT:
        words.update(re.findall(r"[\w'-]+", re.sub(r"--.*", "", read(f))))
    for f in SRC:
        words.update(re.findall(r"\w+", " ".join(re.findall(r"#\[tactic\([^\]]*\]|ghost use [^;]*;|(?:ensures|requires)[^\n]*", read(f)))))
    out = []
    for f in ANTT:
        t = read(f)
        if re.match(r"crates/\w+/proofs/\w+\.antt", f):
            for x in re.findall(r"(?m)^pub ([\w'-]+) [:{(]", t):
                if words[x] <= len(re.findall(r"(?m)^(?:pub )?" + re.escape(x) + r"(?![\w-])", t)):
                    out.append(f"{f}: {x}")
    return out


def answers():
    return [f"{f}: {n}" for f in ANTT if f.endswith("Answers.antt") for n in re.findall(r"(?m)^(?:abbrev )?pub (\S+) : goal\.", read(f))]


KINDS = [
    ("1a", "own enums of Result's shape", result_shaped),
    ("1b", "own enums of Option's shape", option_shaped),
    ("1c", "uses of these", own_uses),
    ("1d", "a refusal handed on by an arm of a match", lambda: lines(r"(?:Refused|Err)\((why|stop)\) => (?:return )?(?:[A-Za-z]+::Refused|Err)\(\1\)")),
    ("1e", "flags: fields and parameters", lambda: lines(r"^ +(?:pub )?[a-z_]+: bool,")),
    ("1f", "numbers for kinds", lambda: lines(r"stop != 0|form: u8|\b(?:OWN|PART|RUN)\b =>|word == 0|number\(why\) ==|_ => 16|known: bool|fn place_number|fn message_word")),
    ("2a", "groups of functions with like bodies", alike),
    ("2b", "functions named by a size or a width", lambda: lines(r"fn (?:(?:signed|unsigned|number)(?:16|32|64)|(?:four|six|twelve|sixteen|sixty_four|first_sixteen|first_block)(?:_at)?)\b")),
    ("2c", "outcomes: a struct with answer and written", lambda: lines(r"^ +pub written: usize,")),
    ("3a", "loops written with while or loop", lambda: lines(r"^ *(?:'[a-z_]+: )?(?:while|loop)\b")),
    ("3b", "of these, an index counted by hand", lambda: [x for x in lines(r"^ *(?:'[a-z_]+: )?while [a-z_]+(?:\.[a-z_]+)? (?:<|>|!=)")]),
    ("4a", "equality by `same`", lambda: lines(r"\bsame(?:::same)?\(", r"fn same")),
    ("4b", "conversions by a function", lambda: lines(r"\b(?:wide|offset|bit|flag|number|answer_number|to_number|signed16|signed32|unsigned16|unsigned32)\(", r"fn |put_number|next_number|ghost|ensures|requires")),
    ("4c", "a field copied to a local first", lambda: lines(r"^ *let [a-z_]+ = [a-z_]+\.[a-z_]+;")),
    ("4d", "types with no derive but Clone, Copy, Drop", lambda: [x for x in lines(r"#\[derive\((?:Clone, Copy|Drop)\)\]")]),
    ("5a", "facts that three functions or more require", required),
    ("5b", "pairs of parameters in nine functions or more", parameters),
    ("6a", "a text to write to with an offset beside it", lambda: lines(r"text: &mut \[u8\]")),
    ("6b", "fields that are arrays", lambda: lines(r"^ +(?:pub )?[a-z_]+: \[[^;]+; [^]]+\],")),
    ("7a", "a shell that returns early by hand", lambda: lines(r"return unread\(hall\)|return MISUSE|return stop")),
    ("7b", "switches on a code, a form, a kind", lambda: lines(r"^ *match (?:c|v|f|code|form|kind) \{")),
    ("8a", "answers to goals", answers),
    ("8b", "laws of proofs/ cited nowhere", uncited),
]


def main():
    for k, what, find in KINDS:
        if sys.argv[1:]:
            if k in sys.argv[1:]:
                print(*find(), sep="\n")
        else:
            print(f"{k}  {len(find()):5}  {what}")
    if not sys.argv[1:]:
        kept = [l for f in SRC for l in read(f).split("\n") if KEPT in l]
        print(f"    {len(kept):5}  lines that say why a place stays")
        print(f"    {sum(read(f).count(chr(10)) for f in SRC):5}  lines of code")
        print(f"    {sum(read(f).count(chr(10)) for f in ANTT):5}  lines of definitions and proofs")


if __name__ == "__main__":
    main()
