#!/usr/bin/env python3
"""Lists names that nothing uses, and imports that their file does not use, one to a line: FILE:LINE NAME. Run in the repository:

    tools/unused.py              all crates; the exit status is 1 if anything is listed
    tools/unused.py NAME ..      the crates named alone

A use is an occurrence outside imports, comments and the definition itself: for a private name in its own file, for a public one also in a
file that imports it. A name in backquotes in README.md or docs/ is part of the product, and one in a file Examples.antt is an example.
Nothing that is used is listed; where two things have one name, the use of one hides that the other has none.
"""
import collections
import pathlib
import re
import sys

# Never listed, and why.
KEPT = {
    r"\S+[-_]spec|main": "the toolchain asks for it",
    r"volkhidar_\w+": "C and Rust call it",
}
# Files of a function's proof: each public name in them is a goal of the toolchain's.
ANSWERS = ("Answers", "Invariants")

IMPORT = re.compile(r"\s*(pub |ghost )?use (.*?)(?:(?:\.|::)\{(.*)\}| as ([^\s;]+))?;?$")
SECTION = re.compile(r"\s*((module|infixl?|infixr|(pub )?mod) |impl\b)")
LISTED = re.compile(r"^((?:pub |ghost )?use [^;{]*\{)([^;]*)(\};)", re.M)
SIGNATURE = re.compile(r"((?:pub |abbrev |unfoldable )*)(?:(?:record|data) (?=.*\bwhere$)|ruleset |(?=\S+ :(?: |$)))([^\s(){}.,;]+)")
ITEM = re.compile(r'(pub )?(?:extern "C" )?(?:fn|struct|enum|const) (\w+)')


class File:
    """imports: line, what stands before, path, names in braces, other name; defined: line, name, is it public, its words; words: of all."""

    def __init__(self, path):
        self.path, self.rt, self.crate, self.module = path, path.suffix == ".rt", path.parts[1], ".".join(path.with_suffix("").parts[2:])
        self.imports, self.defined, self.words = [], [], collections.Counter()
        # What an attribute names for the tactics, as using(crate::proofs::Runs::my_lemma).
        self.cited = set(re.findall(r"\w+(?:::\w+)+", path.read_text())) if self.rt else set()
        own, indents, in_header = None, [0], False
        # An import of several lines, as one.
        text = path.read_text()
        if self.rt:
            text = LISTED.sub(lambda m: m[1] + " ".join(m[2].split()).rstrip(",") + m[3] + "\n" * m[2].count("\n"), text)
        for number, line in enumerate(text.splitlines(), 1):
            line = re.sub(r"//.*$" if self.rt else r"(^|\s)--( .*)?$", "", line).rstrip()
            if imported := IMPORT.match(line):
                self.imports.append((number, *imported.groups()))
                continue
            if line and not in_header:
                indents = [i for i in indents if i <= len(line) - len(line.lstrip())]
            at_margin = line[: indents[-1]].isspace() or indents[-1] == 0
            if at_margin and SECTION.match(line[indents[-1] :]):
                own, in_header = None, "module" in line
            elif at_margin and (start := (ITEM if self.rt else SIGNATURE).match(line[indents[-1] :])):
                own = (number, start.group(2), "pub" in (start.group(1) or ""), collections.Counter())
                self.defined.append(own)
            if in_header and line.endswith("where"):
                indents, in_header = [*indents, indents[-1] + 2], False
            words = self.split(line)
            self.words.update(words)
            if own:
                own[3].update(words)

    def split(self, line):
        words = [word for word in re.split(r"[\s(){}.,;`]+", line) if word]
        return words + [word for word in re.findall(r"\w+", line) if word not in words] if self.rt else words

    def has(self, name, besides=collections.Counter()):
        """Whether a name occurs, one with gaps such as ◌+◌ by its parts."""
        parts = [part for part in name.split("◌") if part]
        return self.words[name] > besides[name] or all(self.words[part] > besides[part] for part in parts)

    def takes(self, name, other):
        """Whether this file can name what the other calls so."""
        if self.cited & {"::".join([crate, *other.module.split("."), name]) for crate in ("crate", other.crate)}:
            return True
        if self.rt and other.rt:
            return self.crate == other.crate or bool(self.words[other.crate]) or any(f"{i[2]}::".startswith(other.crate + "::") for i in self.imports)
        paths = ((path.removeprefix("Rattle."), names) for _, _, path, names, _ in self.imports)
        return any(path == f"{other.crate}.{other.module}" and (not names or name in re.split(r",\s*", names)) for path, names in paths)


def unused(file, files, named):
    for number, before, path, names, alias in file.imports:
        for name in re.split(r",\s*(?:[^\s,]+ as )?", re.sub(r"^[^\s,]+ as ", "", names)) if names else [alias or re.split(r"::|\.", path)[-1]]:
            if before != "pub " and not file.has(name):
                yield number, f"{name} (imported)"
    for number, name, public, own in file.defined:
        others = (f for f in files if f is not file and (public or file.rt) and f.has(name) and f.takes(name, file))
        is_asked = public and not file.rt and file.module.split(".")[-1] in ANSWERS
        is_kept = is_asked or name in named or file.module.endswith("Examples") or any(re.fullmatch(kept, name) for kept in KEPT)
        if not is_kept and not file.has(name, own) and not any(others):
            yield number, name


def main():
    paths = [path for part in ("src", "specs", "proofs") for path in sorted(pathlib.Path("crates").glob(f"*/{part}/**/*"))]
    files = [File(path) for path in paths if path.suffix in (".antt", ".rt")]
    documents = [pathlib.Path("README.md"), *pathlib.Path("docs").rglob("*.md")]
    named = {name for path in documents for name in re.findall(r"`([^`\s]+)`", path.read_text())}
    found = [(f.path, *one) for f in files if f.crate in (sys.argv[1:] or [f.crate]) for one in unused(f, files, named)]
    for path, number, name in sorted(found):
        print(f"{path}:{number} {name}")
    return bool(found)


if __name__ == "__main__":
    sys.exit(main())
