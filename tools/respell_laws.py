#!/usr/bin/env python3
"""A second pass over the spelling of the repository's own names, after respell.py; run it once, at the top.

    respell_laws.py            rewrites crates/*/{src,specs,proofs,must-fail} and what the pages and tests say of them
    respell_laws.py --list     prints each name with what it becomes

  laws and the names local to proofs: the dash that respell.py kept between two names goes, since a name with a dash can stand in no attribute    put-length -> put_length
  names that the rule made badly                                                                                                                   rules_from200 -> rules_from_200
  definitions and edits: brackets around an application before or after == go                                                                      ((length l) == 2) -> (length l == 2)
"""
import collections, os, re, sys

NAME = r"[A-Za-z_][A-Za-z0-9_'\-₀-₉]*"
TOKEN = re.compile(r"(?m)--[^\n]*|//[^\n]*|\"(?:[^\"\\]|\\.)*\"|" + NAME)
DECLARED = re.compile(r"(?m)^ *(?:(?:abbrev|unfoldable|pub) )*(" + NAME + r") :(?!=)(.*)")
BOUND = re.compile(r"\blet (" + NAME + r") (?::|=)|[({](" + NAME + r") : |(?m:^ +(" + NAME + r") = )")
KIT_USE = re.compile(r"(?m)^\s*(?:pub\s+)?(?:ghost\s+)?use\s+([\w.'◌·-]+)\.\{([^}]*)\}")
ONE_BY_ONE = {"rules_from200": "rules_from_200", "security_len": "one_number",
              "of-seed": "of_seed", "twenty-one": "twenty_one", "unit-some": "unit_some", "done-so": "done_so"}
# where a file has the name with an underscore for something else
TAKEN = "_law"


def files(top, kinds):
    for at, dirs, names in os.walk(top):
        dirs[:] = sorted(d for d in dirs if d not in ("out", "target"))
        for n in sorted(names):
            if n.endswith(kinds):
                yield os.path.join(at, n)


def read(p):
    with open(p, encoding="utf-8") as f:
        return f.read()


def table():
    own, kit = set(), set()
    crates = set(os.listdir("crates"))
    for p in files("crates", (".antt",)):
        if os.path.basename(p) == "Proof.antt":
            continue
        t = read(p)
        for name, rest in DECLARED.findall(t):
            if "-" in name and not rest.strip().startswith("goal."):
                own.add(name)
        own |= {n for found in BOUND.findall(t) for n in found if "-" in n}
        for path, names in KIT_USE.findall(t):
            parts = path.split(".")
            if not (parts[0] == "Rattle" and parts[1] in crates):
                kit |= {w.split(" as ")[0].strip() for w in names.split(",")}
            elif "Goals" in parts or "Given" in parts:
                kit |= {w.strip() for w in names.split(",")}
    words = [set(re.findall(NAME, re.sub(r"(?m)--[^\n]*", "", read(p)))) for p in files("crates", (".antt", ".rt"))]
    to = {}
    for n in sorted(own - kit):
        new = n.replace("-", "_")
        to[n] = new + TAKEN if any(n in w and new in w for w in words) else new
    to.update(ONE_BY_ONE)
    back = collections.Counter(to.values())
    assert all(k == 1 for k in back.values()), [n for n, k in back.items() if k > 1]
    return to


def turn(text, to, laws):
    """names as whole words; behind a dot only where it follows a module's name or alias that has such a law"""
    def one(m):
        t = m.group(0)
        if t.startswith('"'):
            return t
        if t.startswith(("--", "//")):
            return re.sub(NAME, lambda k: to.get(k.group(0), k.group(0)), t)
        if text[max(0, m.start() - 1):m.start()] == "." and t not in ONE_BY_ONE and not re.search(r"(?:^|[^\w'.])" + laws + r"\.$", text[max(0, m.start() - 60):m.start()]):
            return t
        return to.get(t, t)

    return TOKEN.sub(one, text)


APPLIED = r"\(((?:" + NAME + r")(?:\.[\w']+)*(?: (?:[\w.']+|\([^()]*\)))+)\)"


def brackets(text):
    def line(l):
        if re.match(r"\s*(--|//|#)", l):
            return l
        l = re.sub(r"(?<![\w'.)\]] )" + APPLIED + r"(?= == )", r"\1", l)
        return re.sub(r"(?<= == )" + APPLIED + r"(?!\.)", r"\1", l)
    return "\n".join(map(line, text.split("\n")))


def main():
    to = table()
    if "--list" in sys.argv:
        for k, v in sorted(to.items()):
            print(f"{k}\t{v}")
        return
    aliases = set()
    for p in files("crates", (".antt",)):
        aliases |= set(re.findall(r"(?m)^\s*use [\w.'-]+ as (" + NAME + r")$", read(p)))
    laws = "(?:" + "|".join(sorted(aliases - {"goal", "tie"}) + [r"[A-Z]\w*"]) + ")"
    changed = 0
    for p in [*files("crates", (".antt", ".rt", ".edit")), *files("tests/demand3", (".edit",))]:
        t = read(p)
        n = turn(t, to, laws)
        if not p.endswith(".rt") and "/proofs/" not in p:
            n = brackets(n)
        if n != t:
            changed += 1
            with open(p, "w", encoding="utf-8") as f:
                f.write(n)
    for p in [*files("docs", (".md",)), "README.md", "tests/README.md"]:
        t = read(p)
        n = re.sub(r"`[^`\n]+`", lambda m: re.sub(NAME, lambda k: to.get(k.group(0), k.group(0)), m.group(0)), t)
        if n != t:
            changed += 1
            with open(p, "w", encoding="utf-8") as f:
                f.write(n)
    print(f"respell_laws: {len(to)} names, {changed} files")


if __name__ == "__main__":
    main()
