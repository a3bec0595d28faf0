#!/usr/bin/env python3
"""Brings the names of definitions and lemmas to Rattle's spelling: words in snake case, a dash only between two names.

usage: tools/respell.py            at the top of the repository, after port.py: rewrites crates/, README.md and docs/ in place
       tools/respell.py --map      prints the old names with the new ones, and writes nothing

Functions of src/, exported names, strings, inputs and outputs keep their names, and so does what other libraries name. A lemma keeps
the dash between two names of definitions (`length-append`), as the guide to contracts has it; in every other name it is an underscore.
Names that would fall together with another of the same file are listed, and none is written then; --force writes them, where the
other name is only a crate's in a path. Run it once: then `rt fmt` has laid out each crate.
"""
import collections
import glob
import os
import re
import subprocess
import sys

ROOT = os.path.dirname(os.path.dirname(os.path.abspath(__file__)))
CRATES = [line.split(":")[0].split()[0] for line in open(f"{ROOT}/crates.txt") if ":" in line and not line.startswith("#")]
TOKEN = re.compile(r"--[^\n]*|\"(?:[^\"\\]|\\.)*\"|«[^»]*»|[^\s(){}.;,@\"«»\[\]\\]+")
TURNED = re.compile(r"[^\W\d_]'?-|-[^\W\d_]|[a-z0-9][A-Z]")
USE = re.compile(r"^\s*(?:pub )?use ([^\s;{]+?)(?:\.\{([^}]*)\})?(?: as \S+)?\s*$", re.M)
OWN = re.compile(r"Rattle\.(%s)\." % "|".join(map(re.escape, CRATES)))
SIGNATURE = re.compile(
    r"^([ \t]*)(?:(?:abbrev|unfoldable|pub) )*(?!pub |where|let |in |use |record |data |module |unfolding )([^\s(){}.;,]+)(?: [({][^=\n]*?)?(?:\s*:\s|\s*:$)(.*)$", re.M)
TYPE = re.compile(r"^\s*(?:pub )?(?:record|data) ([^\s(){}:]+)", re.M)
# Names that would fall together with a definition's: a lemma gets _lem, as the guide has it, and a field says what it states.
TOLD_APART = {name: name.replace("-", "_") + "_lem" for name in (
    "is-disk-of in-words cover-by put-behind words-of some-if hull-of after-spaces after-word no-space in-float read-bits read-fields better-of "
    "all-corners same-disk kept-numbers line-words first-of not-there").split()}
TOLD_APART.update({"first-support": "first_support_is", "record-bytes": "record_bytes_are", "on-boundary": "on_boundary_is", "read-by": "read_by_is"})
# The same for lemmas that are in snake case already, in the modules that state them.
TOLD_APART_IN = {"fitting/proofs/Fronts": ["to_front"], "belonging/proofs/Meaning": ["none_has"], "grammar/proofs/Grammar": ["is_digit", "all_digits"],
                 "stretches/proofs/Found": ["widest_of"]}
# What Rattle named for a proof of the older form: those names are turned with the proofs.
MADE = re.compile(r"Need-|lts\.|tie\.Need")


def files():
    found = []
    for part in ("specs", "proofs"):
        found += glob.glob(f"{ROOT}/crates/*/{part}/**/*.antt", recursive=True)
    return sorted(found)


def read(path):
    with open(path, encoding="utf-8", newline="") as file:
        return file.read()


def tokens(text):
    for m in TOKEN.finditer(text):
        if not m.group().startswith("--") and m.group()[0] not in "\"«":
            yield m


def snake(word):
    """A word with a capital inside it in snake case; a word that begins with a capital names a type and stays."""
    if not re.match(r"[a-z]", word):
        return word
    return re.sub(r"(?<=[A-Za-z0-9_])([A-Zℕℤ])", lambda m: "_" + m.group(1).lower(), word)


def is_walk(path):
    return path.endswith("/Proof.antt")


def gather():
    """Per file the names that it takes from other libraries; the turned names outside walks; those that name lemmas; names of definitions."""
    taken, own, lemmas, defined = {}, set(), set(), set("* + - < ≤ ≡ ∷ ++ & | ^ ⊎ ×".split())
    made = collections.defaultdict(set)
    for path in files():
        text = read(path)
        taken[path] = set()
        for m in USE.finditer(text):
            if m.group(2) and not OWN.match(m.group(1) + "."):
                names = {n.strip().split(" as ")[0].strip() for n in m.group(2).split(",")}
                taken[path] |= names
                if "/specs/" in path:
                    defined |= {n.strip("◌") for n in names if "-" not in n}
        if "/specs/" in path:
            defined |= {snake(m.group(2)) for m in SIGNATURE.finditer(text) if not m.group(1)} | set(TYPE.findall(text))
        inside = None
        for line in text.split("\n"):
            if re.match(r"(pub )?(record|data) ", line):
                inside = True
            elif line and not line.startswith((" ", "--")):
                inside = False
            m = SIGNATURE.match(line)
            if m and not inside and TURNED.search(m.group(2)):
                (made[path] if MADE.search(m.group(3)) or m.group(2).endswith("-spec") else lemmas).add(m.group(2))
        if not is_walk(path):
            for m in tokens(re.sub(r"(?m)^\s*(pub )?use [^\n]*$", "", text)):
                dotted = m.start() > 0 and text[m.start() - 1] == "."
                if TURNED.search(m.group()) and m.group() not in taken[path]:
                    own.add(m.group())
    # reached through a module's name alone
    own -= {"TheVariants", "append-nil", "not-nil"}
    # one letter is a variable's name, and these are words of sentences
    defined = {d for d in defined if not re.match(r"\w$", d) and d not in ("is", "not", "none", "same", "some")}
    return taken, own, lemmas, defined, made


def turned(name, lemmas, defined):
    """The new spelling of a name."""
    if name in TOLD_APART:
        return TOLD_APART[name]
    parts = [snake(p) for p in name.split("-")]
    out = parts[0]
    for left, right in zip(parts, parts[1:]):
        joined = name in lemmas and left.strip("'") in defined and right.strip("'") in defined
        out += ("-" if joined or not left or not right else "_") + right
    return out


def functions():
    """Names of functions as the older Rattle had them in proofs, with dashes."""
    found = set()
    for path in glob.glob(f"{ROOT}/crates/*/src/*.rt"):
        found |= set(re.findall(r"\bfn (\w+)", read(path)))
    return {f.replace("_", "-") for f in found if "_" in f}


def main():
    taken, own, lemmas, defined, made = gather()
    steps = functions()
    texts = {path: read(path) for path in files()}
    every = {}

    def apart(path, name):
        """Whether `path` states, or takes from the module that states, a lemma of this name that falls together with a definition's."""
        for module, names in TOLD_APART_IN.items():
            if name in names:
                crate, _, rest = module.partition("/")
                cited = "use Rattle.%s.%s.{" % (crate, rest.replace("/", "."))
                lines = [line for line in texts[path].split("\n") if line.lstrip().startswith((cited, "pub " + cited))]
                if path.endswith(f"crates/{module}.antt") or any(re.search(r"[{ ]%s[,}]" % name, line) for line in lines):
                    return True
        return False

    def rename(path, text, name, dotted):
        if path in texts and path.endswith(".antt") and apart(path, name):
            return name + "_lem"
        if name in taken.get(path, ()) or not TURNED.search(name) or name[0].isupper() and "-" not in name:
            return name
        if is_walk(path):
            local = name in lemmas and name not in made[path]
            if name in made[path] or dotted and name in steps and name in TOLD_APART or dotted and name in steps and name not in own or name.startswith(("invariant-", "decreases-")) or not (name in own or local):
                return name
        elif name not in own:
            return name
        every[name] = turned(name, lemmas, defined)
        return every[name]

    def line_of_comment(path, text):
        """Comments: names between backticks, and those that a header's list begins with."""
        text = re.sub(r"`([^`\n]+)`", lambda m: "`" + respelled(path, m.group(1), True) + "`", text)
        m = re.match(r"(--   )(\S.*?)(\s+==.*| : .*)?$", text)
        if m and m.group(3):
            text = m.group(1) + respelled(path, m.group(2), True) + m.group(3)
        return text

    def respelled(path, text, inner=False):
        def one(m):
            name = m.group()
            if name.startswith("--"):
                return name if inner else line_of_comment(path, name)
            if name[0] in "\"«":
                return name
            return rename(path, text, name, m.start() > 0 and text[m.start() - 1] == ".")
        out, last = [], 0
        for m in TOKEN.finditer(text):
            out += [text[last:m.start()], one(m)]
            last = m.end()
        return "".join(out) + text[last:]

    def source(path, text):
        """In sources: names with a capital inside anywhere but in strings, names with a dash in clauses and ghost imports."""
        out, clause = [], 0
        for line in text.split("\n"):
            ghost = line.startswith("ghost use") or clause > 0 or re.match(r"\s*(requires|ensures|ghost|invariant)\b", line)
            if ghost and not line.lstrip().startswith("//"):
                clause = max(0, clause + line.count("{") - line.count("}"))
                out.append(respelled(path, line))
            else:
                out.append(re.sub(r"\"(?:[^\"\\]|\\.)*\"|[A-Za-z_]\w*", lambda m: rename(path, line, m.group(), False) if m.group()[0] not in "\"" and re.match(r"[a-z]\w*[A-Z]", m.group()) else m.group(), line)
                           if "`" not in line else re.sub(r"`([^`]+)`", lambda m: "`" + respelled(path, m.group(1), True) + "`", line))
        return "\n".join(out)

    new = {}
    for path in files():
        new[path] = respelled(path, read(path))
    for path in sorted(glob.glob(f"{ROOT}/crates/*/src/*.rt")):
        new[path] = source(path, read(path))
    for path in sorted(glob.glob(f"{ROOT}/crates/*/must-fail/*.edit")):
        new[path] = "\n".join(respelled(path, line) if line.startswith(("old:", "new:")) else line for line in read(path).split("\n"))
    for path in [f"{ROOT}/README.md", *sorted(glob.glob(f"{ROOT}/docs/*.md")), *sorted(glob.glob(f"{ROOT}/docs/changes/*.md"))]:
        new[path] = re.sub(r"`([^`\n]+)`", lambda m: "`" + respelled(path, m.group(1), True) + "`", read(path))
    if "--map" in sys.argv:
        for k in sorted(every):
            print(k, every[k])
        return 0
    together = []
    for path, text in new.items():
        if path.endswith(".antt") and not is_walk(path):
            before = {m.group() for m in tokens(read(path))}
            back = collections.defaultdict(set)
            for name in before:
                back[rename(path, "", name, False)].add(name)
            together += [(path, k, v) for k, v in back.items() if len(v) > 1]
    whole = collections.defaultdict(set)
    for k, v in every.items():
        whole[v].add(k)
    for path, k, v in together:
        print("fall together in", path[len(ROOT) + 1:], k, sorted(v))
    for k, v in whole.items():
        if len(v) > 1:
            print("two names become", k, sorted(v))
    if together and "--force" not in sys.argv:
        return 1
    for path, text in new.items():
        if text != read(path):
            with open(path, "w", encoding="utf-8", newline="") as file:
                file.write(text)
    for crate in CRATES:
        subprocess.run(["rt", "fmt"], cwd=f"{ROOT}/crates/{crate}", stdout=subprocess.DEVNULL, check=False)
    return 0


if __name__ == "__main__":
    sys.exit(main())
