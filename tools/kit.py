"""What the kit's compiler `rattle` is told of a crate, for the tools beside this file. It reads each library that the crate uses as
`rt check`, `rt lib` or `rt ci` left it, in crates/NAME/out/rlib.
"""
import pathlib
import re
import subprocess


def home():
    """The kit's folder."""
    return pathlib.Path(subprocess.run(["rt", "doc"], capture_output=True, text=True, check=True).stdout.strip()).parent


def listed():
    """Each crate of crates.txt with what it uses."""
    lines = (line.split("#")[0] for line in pathlib.Path("crates.txt").read_text().splitlines())
    return {name: used.split() for name, used in re.findall(r"^(\w+)[^:\n]*:(.*)$", "\n".join(lines), re.M)}


def below(name, every):
    """The repository's crates that this one stands on."""
    found = set()
    for used in every[name]:
        if used in every:
            found |= {used} | below(used, every)
    return found


def library(name):
    return pathlib.Path("crates", name, "out", "rlib", f"{name}.rlib").resolve()


def words(command, name, folder, jobs=2):
    """What `rattle` is given to check or build the crate NAME, whose src/, specs/ and proofs/ stand in the folder."""
    kit, every = home(), listed()
    root = next(folder / "src" / file for file in ("lib.rt", "main.rt") if (folder / "src" / file).exists())
    yield from [kit / "bin" / "rattle", command, "--crate-name", name, root, "-L", f"dependency={kit}/rlibs"]
    for used in ["std", *every[name]]:
        yield from ["--extern", f"{used}={library(used) if used in every else kit / 'rlibs' / f'{used}.rlib'}"]
    for used in sorted(below(name, every)):
        yield from ["-L", f"dependency={library(used).parent}"]
    yield from ["--antt-project", kit / "rattle" / "logic" / "antt-project.json", "--logic-built", kit / "logic_built", "--jobs", str(jobs)]
