"""A copy of the crate `link` and of all that it uses, with the definitions and the declared types alone.

No function stands in it, so its theorems are checked in seconds. Of the files of laws those are copied that a file of the
copy names. Those of `theorems` are put into `link`, so that one check shows all that rests on a law which no longer holds.
"""

import os
import re

TOP = "link"
LAWS = "theorems"
MODULE = re.compile(r"Rattle\.(\w+)\.(specs|proofs)\.(\w+)")
FUNCTION = re.compile(r"\s*(pub(\(crate\))? )?(extern \"C\" )?fn |impl(<[^>]*>)? .* for ")
IMPORT = re.compile(r"(use [\w:]*::)(?:(\w+)|\{([\w, ]*)\});")


def imported(line):
    """An import of a source file, with the types and constants alone; nothing where it has none."""
    path, one, some = IMPORT.fullmatch(line).groups()
    names = [name.strip() for name in (one or some).split(",")]
    names = [name for name in names if name[:1].isupper()]
    return [f"{path}{names[0] if len(names) == 1 else '{' + ', '.join(names) + '}'};"] if names else []


def types(source):
    """A source file without its functions, its impls of traits, what they import, ghost fields and the comments: modules, types and constants.

    It goes by the layout of `rt fmt`: a function ends with a brace as far in as it starts.
    """
    kept, end = [], None
    source = re.sub(r"^use [\w:]*::\{[^}]*\};", lambda match: " ".join(match[0].split()).replace(", }", "}"), source, flags=re.M)
    for line in source.split("\n"):
        bare = line.split("//")[0].rstrip()
        if end is not None:
            end = None if bare == end else end
        elif FUNCTION.match(bare):
            end = None if bare.endswith("{}") else bare[: len(bare) - len(bare.lstrip())] + "}"
        elif bare.startswith("use "):
            kept += imported(bare)
        elif bare and not re.match(r"\s*(pub )?ghost ", bare) and (not bare.lstrip().startswith("#[") or "#[derive(" in bare):
            kept.append(bare)
    return "\n".join(kept) + "\n"


def home(crate):
    """The crate of the copy that has the files of a crate."""
    return TOP if crate == LAWS else crate


def at_home(text):
    """A file of the copy: it names the laws of `theorems` where they stand there."""
    return text.replace(f"Rattle.{LAWS}.specs.", f"Rattle.{TOP}.specs.")


class Copy:
    """Reads the repository at `root`, writes the copy to `room`."""

    def __init__(self, root, room):
        self.root, self.room = root, room
        uses = {}
        for line in open(os.path.join(root, "crates.txt")):
            name, colon, rest = line.split("#")[0].partition(":")
            if colon:
                uses[name.split()[0]] = rest.split()
        self.uses = {}
        todo = [TOP]
        while todo:
            crate = todo.pop()
            if crate not in self.uses:
                self.uses[crate] = [other for other in uses[crate] if other in uses and other != LAWS]
                todo += self.uses[crate]

    def read(self, *path):
        return open(os.path.join(self.root, "crates", *path)).read()

    def write(self, text, *path):
        path = os.path.join(self.room, *path)
        os.makedirs(os.path.dirname(path), exist_ok=True)
        open(path, "w").write(text)

    def named(self):
        """Every file of definitions and laws that `link` rests on, as crate, folder, name."""
        specs = os.listdir(os.path.join(self.root, "crates", TOP, "specs"))
        todo = [(TOP, "specs", name.removesuffix(".antt")) for name in specs if name != "Lib.antt"]
        seen = set()
        while todo:
            module = todo.pop()
            if module not in seen:
                seen.add(module)
                found = MODULE.findall(self.read(module[0], module[1], module[2] + ".antt"))
                todo += [other for other in found if other[2] != "declared" and (other[0] in self.uses or other[0] == LAWS)]
        return seen

    def make(self):
        modules = self.named()
        for crate, folder, name in modules:
            self.write(at_home(self.read(crate, folder, name + ".antt")), "crates", home(crate), folder, name + ".antt")
        for crate in self.uses:
            for folder in ("specs", "proofs"):
                names = sorted(name for c, f, name in modules if (home(c), f) == (crate, folder))
                if names:
                    self.write("".join(f"pub mod {name}\n" for name in names), "crates", crate, folder, "Lib.antt")
            sources = os.path.join(self.root, "crates", crate, "src")
            for name in os.listdir(sources):
                self.write(types(self.read(crate, "src", name)), "crates", crate, "src", name)
        self.write("".join(f"{crate}: {' '.join(uses)}\n" for crate, uses in self.uses.items()), "crates.txt")
