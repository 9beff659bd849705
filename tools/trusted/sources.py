"""The definitions of the crates' specs/, each with the words that stand in it."""
import os
import re

# A word of the logic: letters, digits and signs, but no brackets, commas and dots.
WORD = re.compile(r"[^\s(){}\[\],.;:]+")
KINDS = ("abbrev", "unfoldable", "opaque", "record", "data")
# The beginning of a definition, at the margin or in a module with parameters.
HEAD = re.compile(r"^( {0,2})((?:(?:pub|abbrev|unfoldable|opaque|record|data) )+)([^\s(){}:,]+)")
# A case of a `data` definition.
CASE = re.compile(r"^ +(\w+) :")
USE = re.compile(r"^use (\S+?)(?:\.\{([^}]*)\})?(?: as (\S+))?$")


class Definition:
    """A definition: where it stands, its text, and the number of its lines with the comment above."""

    def __init__(self, file, name, first):
        self.file, self.name, self.first, self.lines = file, name, first, []

    def words(self):
        code = "\n".join(line for line in self.lines if not line.lstrip().startswith("--"))
        return set(WORD.findall(code))

    def names(self, word):
        """Whether the definition names the word. `◌>>=◌` is named by `>>=`, and by `do`."""
        words = self.words()
        signs = [sign for sign in word.split("◌") if sign]
        return all(sign in words for sign in signs) or (word == "◌>>=◌" and "do" in words)


class File:
    """A file of specs/: its definitions by name, and the names that its `use` lines bring."""

    def __init__(self, path, crate):
        self.path, self.crate = path, crate
        self.definitions, self.brought = {}, {}
        # The cases of `data` definitions, each with its definition.
        self.cases = {}
        with open(path, encoding="utf-8") as text:
            self.read(text.read().split("\n"))

    def read(self, lines):
        """Cuts the lines into definitions; a comment belongs to the one below it."""
        at, above = None, []
        for number, line in enumerate(lines):
            if line.startswith("use "):
                self.bring(line)
            elif line.lstrip().startswith("--"):
                above.append(line)
            elif not line.strip():
                above = []
            else:
                name = defined_in(line)
                if name and name not in self.definitions:
                    at = self.definitions[name] = Definition(self, name, number)
                if at and not line.startswith("module "):
                    at.lines += above + [line]
                    self.find_case(at, line)
                above = []

    def find_case(self, at, line):
        found = CASE.match(line)
        if found and any(" data " in above for above in at.lines):
            self.cases[found[1]] = at

    def bring(self, line):
        found = USE.match(line)
        for name in (found[2] or "").split(",") if found else ():
            whole, _, local = name.strip().partition(" as ")
            self.brought[local or whole] = (found[1], whole)


    def defining(self, name):
        """The definition of this name, or of the case that it is."""
        return self.definitions.get(name) or self.cases.get(name)


def defined_in(line):
    """The name that a line begins to define, if it does."""
    found = HEAD.match(line)
    # `pub name : type` is a definition at the margin, and else a field of a record.
    if found and (not found[1] or any(word in KINDS for word in found[2].split())):
        return found[3]
    return None


def read_files(top):
    """Each file of specs/, by the path of its module."""
    found = {}
    for crate in sorted(os.listdir(os.path.join(top, "crates"))):
        folder = os.path.join(top, "crates", crate)
        for at, _, names in os.walk(os.path.join(folder, "specs")):
            for name in sorted(names):
                if name.endswith(".antt") and name != "Lib.antt":
                    path = os.path.join(at, name)
                    inside = os.path.relpath(path, folder)[: -len(".antt")]
                    found[f"Rattle.{crate}.{inside.replace(os.sep, '.')}"] = File(path, crate)
    return found
