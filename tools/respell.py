#!/usr/bin/env python3
"""Brings the repository's own definitions, fields, constructors and lemmas to today's spelling. Run it once, at the top, right after port.py.

    respell.py            rewrites crates/*/{src,specs,proofs,must-fail} in place
    respell.py --list     prints each name with what it becomes, and the names that would fall together

What it does, and nothing else:
  value definitions, fields and constructors: camelCase and dashes to snake_case       beaconOf -> beacon_of, else-13 -> else_13
  definitions whose result is a Type, records, data: upper camel case                   allProper -> AllProper
  lemmas: words in snake case; a dash stays where both sides are names                  putIn-fits -> put_in-fits, leaves-told -> leaves_told
  lower-case aliases of imports: words in snake case                                    router-type -> router_type
  specs and clauses: ltb, leb, eqb a b and get_or xs i 0 to today's words for the same  nat_lt, nat_le, (a == b), slice_index xs i
  the crate whose name the kit has: md5 -> md5_digest
  and each crate's root file gets #![tactic(auto)]
"""
import collections, json, os, re, sys

NAME = r"[A-Za-z_][A-Za-z0-9_'\-₀-₉′]*"
TOKEN = re.compile(r"(?m)--[^\n]*|//[^\n]*|^#[^\n]*|\"(?:[^\"\\]|\\.)*\"|" + NAME)
DECL = re.compile(r"^(\s*)((?:(?:abbrev|unfoldable|pub)\s+)*)(" + NAME + r")\s*:(?!=)\s*(.*)$")
HEAD = re.compile(r"^(\s*)(?:(?:pub|abbrev|unfoldable)\s+)*(record|data)\s+(" + NAME + r")")
KIT_USE = re.compile(r"^\s*(?:pub\s+)?(?:ghost\s+)?use\s+(?!Rattle\.(?!std|core)\w)[\w.'·-]+\.\{([^}]*)\}", re.M)
CRATES = {"md5": "md5_digest"}  # own crates that cannot keep their names
ONE_BY_ONE = {"oneType": "is_one_type", "ground": "land", "first_of": "first_match",
              "onABCD": "on_abcd", "onBCDA": "on_bcda", "onCDAB": "on_cdab", "onDABC": "on_dabc"}  # `one_type` is a lemma and a field already; `ground` and `first_of` are tactics today


def files(kinds):
    for top, dirs, names in os.walk("crates"):
        dirs[:] = sorted(d for d in dirs if d != "out")
        for n in sorted(names):
            if n.endswith(kinds):
                yield os.path.join(top, n)


def read(p):
    with open(p, encoding="utf-8") as f:
        return f.read()


def declared():
    """own names by kind: def, fact, record, data, field, ctor, lem"""
    kinds = collections.defaultdict(set)
    for p in files((".antt",)):
        lines = read(p).split("\n")
        whole_proof = os.path.basename(p) == "Proof.antt"
        block = None
        for i, l in enumerate(lines):
            if l.strip().startswith("--"):
                continue
            m = HEAD.match(l)
            if m:
                kinds[m.group(2)].add(m.group(3))
                block = (m.group(2), len(m.group(1)))
                continue
            m = DECL.match(l)
            if not m:
                continue
            indent, mods, name, rest = len(m.group(1)), m.group(2).split(), m.group(3), m.group(4)
            if name in ("let", "in", "use", "where"):
                continue
            if block and indent > block[1]:
                kinds["field" if block[0] == "record" else "ctor"].add(name)
                continue
            block = None
            sig, j = rest, i
            while j + 1 < len(lines) and lines[j + 1].startswith(" " * (indent + 1)):
                j += 1
                sig += " " + lines[j].strip()
            if whole_proof and re.match(r"tie\.|\{M : Type 1\}", sig.strip()):
                continue
            result = sig.rsplit("→", 1)[-1].strip()
            if re.fullmatch(r"Type( \d| ℓ|\s*\(.*\))?", result):
                kinds["fact"].add(name)
            elif "abbrev" in mods or "unfoldable" in mods:
                kinds["def"].add(name)
            else:
                kinds["lem"].add(name)
    return kinds


def kit_words():
    out = set()
    for p in files((".antt", ".rt")):
        for m in KIT_USE.finditer(read(p)):
            out |= {w.split(" as ")[0].strip() for w in m.group(1).split(",")}
    return out


def aliases():
    """names that an import gives a module or a definition for one file, where they are not in today's spelling"""
    out = set()
    for p in files((".antt",)):
        if os.path.basename(p) != "Proof.antt":
            for l in re.findall(r"(?m)^\s*(?:pub )?use .*", read(p)):
                out |= {a for a in re.findall(r" as (" + NAME + r")", l) if re.fullmatch(r"[a-z]+[A-Z]\w*|\w+-\w+", a)}
    return out


def source_names():
    out = set()
    for p in files((".rt",)):
        out |= set(re.findall(r"\b(?:fn|struct|enum|const|trait|mod)\s+(\w+)", read(p)))
    return out


def snake(s):
    s = re.sub(r"([a-z0-9])([A-Z])", lambda m: m.group(1) + "_" + m.group(2).lower(), s)
    return s


def value(s):
    return s if s[0].isupper() else snake(s).replace("-", "_").replace("′", "'")


def fact(s):
    parts = re.split(r"[-_]", s)
    return "".join(p[:1].upper() + p[1:] for p in parts)


def lemma(s, known):
    parts = [snake(p) if not p[:1].isupper() else p for p in s.replace("access-request", "access_request").split("-")]
    out = parts[0]
    for k in range(1, len(parts)):
        left = any("_".join(parts[a:k]) in known for a in range(k))
        right = any("_".join(parts[k:b]) in known for b in range(k + 1, len(parts) + 1))
        out += ("-" if left and right else "_") + parts[k]
    return out.replace("′", "'")


def table():
    kinds, kit, src = declared(), kit_words(), source_names()
    types = kinds["record"] | kinds["data"] | kinds["fact"]
    values = kinds["def"] | kinds["field"] | kinds["ctor"]
    known = {snake(n) for n in kinds["def"]} | types | {w for w in kit if re.fullmatch(NAME, w)}
    to = {}
    for n in sorted(values | kinds["lem"] | types):
        if n in kit or n in src or len(n) == 1:
            continue
        if n in types and n not in values | kinds["lem"]:
            new = fact(n)
        elif n in values:
            new = value(n)
        else:
            new = lemma(n, known)
        if new != n:
            to[n] = new
    for n in sorted(aliases() - values - types - kinds["lem"]):
        to[n] = value(n[0].lower() + n[1:])
    # a lemma that would have the name of a definition, a field or a constructor gets _law; two of one kind that fall together stay as they are
    taken = {to.get(n, n) for n in values | types} | kit
    for n in sorted(kinds["lem"] - values - types - kit - src):
        if to.get(n, n) in taken and len(n) > 1:
            to[n] = to.get(n, n) + "_law"
    whose = collections.defaultdict(set)
    for n in set().union(*kinds.values()):
        whose[to.get(n, n)].add(n)
    for v in whose.values():
        if len(v) > 1:
            for n in v & (kinds["lem"] | kinds["def"]):
                if "-" in n:
                    to.pop(n, None)
    to.update(ONE_BY_ONE)
    return to, kinds, kit, src


def args_after(text, at, count):
    """the ends of `count` arguments (atoms with projections, or bracketed) from `at` on in one line of antt, or None"""
    out = []
    for _ in range(count):
        m = re.compile(r" +").match(text, at)
        if not m:
            return None
        start = at = m.end()
        if at < len(text) and text[at] in "({":
            if text[at] == "{":
                return None
            depth = 0
            while at < len(text):
                depth += {"(": 1, ")": -1}.get(text[at], 0)
                at += 1
                if depth == 0:
                    break
            if depth:
                return None
            m = re.compile(r"(?:\." + NAME + r"|\.\d+)*").match(text, at)
            at = m.end()
        else:
            m = re.compile(r"(?:" + NAME + r"|\d+)(?:\.(?:" + NAME + r"|\d+))*").match(text, at)
            if not m:
                return None
            at = m.end()
        out.append((start, at))
    return out


def comparisons(text):
    """ltb, leb, eqb and get_or of a clause or a definition, in today's words"""
    used = set()

    def line(l):
        if re.match(r"\s*(--|//)", l):
            return l
        if re.match(r"\s*(?:pub\s+)?(?:ghost\s+)?use\s", l):
            return l
        l, n = re.subn(r"(?<![\w.'-])ltb(?![\w'-])", "nat_lt", l)
        if n: used.add("nat_lt")
        l, n = re.subn(r"(?<![\w.'-])leb(?![\w'-])", "nat_le", l)
        if n: used.add("nat_le")
        at = 0
        while True:
            m = re.compile(r"(?<![\w.'-])(eqb|get_or)(?![\w'-])").search(l, at)
            if not m:
                return l
            if m.group(1) == "eqb":
                a = args_after(l, m.end(), 2)
                if a:
                    x, y = (l[s:e] for s, e in a)
                    wrap = l[:m.start()].endswith("(") and l[a[1][1]:].startswith(")")
                    new = f"{x} == {y}" if wrap else f"({x} == {y})"
                    used.add("◌==◌")
                    l = l[:m.start()] + new + l[a[1][1]:]
                    at = m.start() + 1
                else:
                    used.add("nat_eq")
                    l = l[:m.start()] + "nat_eq" + l[m.end():]
                    at = m.start() + 6
            else:
                a = args_after(l, m.end(), 3)
                if a and l[a[2][0]:a[2][1]] == "0":
                    used.add("slice_index")
                    l = l[:m.start()] + "slice_index" + l[m.end():a[1][1]] + l[a[2][1]:]
                else:
                    used.add("slice_index_or")
                    l = l[:m.start()] + "slice_index_or" + l[m.end():]
                at = m.start() + 5

    ghost = re.compile(r"^(\s*(?:pub\s+)?(?:ghost\s+)?use\s+Rattle\.std\.(?:specs\.Prelude|proofs\.Common|proofs\.Math\.\w+)\.\{)([^}]*)(\};?)$")
    old = {"ltb", "leb", "eqb", "get_or"}
    body = "\n".join(line(l) for l in text.split("\n"))
    if not used:
        return text
    lines, done = body.split("\n"), False
    for i, l in enumerate(lines):
        m = ghost.match(l)
        if not m:
            continue
        words = [w.strip() for w in m.group(2).split(",")]
        words = [w for w in words if w not in old]
        if "specs.Prelude" in m.group(1) and not done:
            words += sorted(u for u in used if u not in words)
            done = True
        lines[i] = m.group(1) + ", ".join(words) + m.group(3) if words else None
    lines = [l for l in lines if l is not None]
    if not done:
        rt = any(l.startswith("ghost use") for l in lines)
        new = ("ghost " if rt else "") + "use Rattle.std.specs.Prelude.{" + ", ".join(sorted(used)) + "}" + (";" if rt else "")
        k = next((i for i, l in enumerate(lines) if re.match(r"\s*(ghost )?use\s", l)), 0)
        lines.insert(k, new)
    return "\n".join(lines)


def turn(text, to, fields):
    aliases = set(re.findall(r"^(?:ghost )?use [\w.'·-]+ as (\w+)", text, re.M)) - {"tie", "goal"}

    def one(m):
        t = m.group(0)
        if t.startswith(("--", "//")):
            return re.sub(r"(?<![A-Za-z0-9_'-])" + NAME, lambda k: to.get(k.group(0), k.group(0)) if re.search(r"[a-z][A-Z]|-", k.group(0)) and "`" + k.group(0) + "`" in t else k.group(0), t)
        if t.startswith(('"', "#")):
            return t
        before = text[max(0, m.start() - 5):m.start()]
        if before.endswith(("tie.", "goal.")):
            return t
        if t in ONE_BY_ONE:
            return ONE_BY_ONE[t]
        if before.endswith(".") and not before.endswith("..") and before[-2:-1].strip() and t not in fields:
            m2 = re.search(r"([A-Za-z_][\w'-]*)\.$", text[max(0, m.start() - 40):m.start()])
            if not (m2 and m2.group(1) in aliases):
                return t
        return to.get(t, t)

    return TOKEN.sub(one, text)


def main():
    to, kinds, kit, src = table()
    every = set().union(*kinds.values())
    back = collections.defaultdict(set)
    for n in every:
        back[to.get(n, n)].add(n)
    together = {k: v for k, v in back.items() if len(v) > 1 or (k in (kit | src) and k not in v)}
    if "--list" in sys.argv:
        for k, v in sorted(to.items()):
            print(f"{k}\t{v}")
        for k, v in sorted(together.items()):
            print("together:", k, sorted(v), "also of the kit" if k in kit else "", "also in src" if k in src else "")
        return
    changed = 0
    for p in list(files((".antt", ".rt", ".edit"))):
        t = read(p)
        n = turn(t, to, kinds["field"])
        if p.endswith(".rt") or "/specs/" in p:
            n = comparisons(n)
        for a, b in CRATES.items():
            n = re.sub(r"\bRattle\." + a + r"\.", f"Rattle.{b}.", n)
            if p.endswith((".rt", ".edit")):
                n = re.sub(r"(?<![\w:])" + a + r"::", b + "::", n)
                n = re.sub(r"^(\s*(?:pub )?use )" + a + r"\b", r"\1" + b, n, flags=re.M)
        if n != t:
            changed += 1
            with open(p, "w", encoding="utf-8") as f:
                f.write(n)
    for p in files(("lib.rt", "main.rt")):
        t = read(p)
        if "#![tactic" not in t:
            lines, k = t.split("\n"), 0
            while k < len(lines) and lines[k].startswith("//"):
                k += 1
            lines.insert(k, "#![tactic(auto)]\n")
            with open(p, "w", encoding="utf-8") as f:
                f.write("\n".join(lines))
    for a, b in CRATES.items():
        if os.path.isdir(f"crates/{a}"):
            os.rename(f"crates/{a}", f"crates/{b}")
            t = read("crates.txt")
            with open("crates.txt", "w", encoding="utf-8") as f:
                f.write("\n".join(l if l.startswith("#") else re.sub(r"\b" + a + r"\b", b, l) for l in t.split("\n")))
    print(f"respell: {len(to)} names, {changed} files")


main()
