"""The modules that the Rattle kit proves and compiles, for tools that have its compiler make something else of them.

No command of the kit hands a module out: `rt lib` and `rt run` pass it to the clang of its toolchain and remove
it. So once a crate is proved and built, this is done again by a copy of the kit's folder that is made of links, but
that its clang is a script, which keeps the module and the words that it was called with. In these words the kit's
clang is then asked for something else, such as assembly.
"""
import contextlib
import hashlib
import pathlib
import re
import shutil
import subprocess
import sys
import tempfile
from typing import NamedTuple

ROOT = pathlib.Path(__file__).resolve().parent.parent
CRATES = ROOT / "crates"
# The targets that the kit proves for.
X86_64, AARCH64 = "x86_64-unknown-linux-gnu", "aarch64-unknown-linux-gnu"

CLANG = """#!/bin/sh
# Does what is asked, and where that is an object file of a module, keeps the module and these words.
{clang} "$@" || exit
case " $* " in
    *' -c -x ir '*) ;;
    *) exit ;;
esac
for word; do
    case $word in
        *.bc | *.ll) cp "$word" {room}/module ;;
    esac
done
printf '%s\\n' "$@" > {room}/words
"""
# A program of another target could be neither linked nor run here.
LINKER = """#!/bin/sh
# Writes a program that does nothing.
while [ "$1" != -o ]; do
    shift
done
printf '#!/bin/sh\\n' > "$2" && chmod +x "$2"
"""


def say(text):
    print(f"{pathlib.Path(sys.argv[0]).name}: {text}", file=sys.stderr)


def stop(text):
    sys.exit(f"{pathlib.Path(sys.argv[0]).name}: {text}")


def run(words, folder=ROOT):
    """What a command prints; if it fails, that is shown."""
    how = {"cwd": folder, "stdin": subprocess.DEVNULL, "stdout": subprocess.PIPE, "stderr": subprocess.STDOUT}
    ran = subprocess.run(words, text=True, errors="replace", **how)
    if ran.returncode:
        stop(f"`{' '.join(map(str, words))}` failed:\n{ran.stdout[-4000:]}")
    return ran.stdout


# ---- What a crate is made of and proved by

PARTS = {"src": ".rt", "specs": ".antt", "proofs": ".antt"}


def crates_of(name):
    """The crate and those of the repository that it stands on, lowest first."""
    return run([ROOT / "tools/crates_below", name]).split()


def sources(name):
    """The files of a crate and of those that it stands on, by their paths."""
    found = [
        path
        for crate in crates_of(name)
        for part, ending in PARTS.items()
        for path in (CRATES / crate / part).rglob(f"*{ending}")
    ]
    return sorted(str(path.relative_to(ROOT)) for path in found)


def sum_of(data):
    return hashlib.sha256(data).hexdigest()


def sum_of_files(paths):
    """The sum of what `sha256sum` prints of files, in this order."""
    return sum_of("".join(f"{sum_of((ROOT / path).read_bytes())}  {path}\n" for path in paths).encode())


def sum_of_sources(name):
    """The sum of the sources of a crate, in the order of their paths."""
    return sum_of_files(sources(name))


def version():
    """The version of what is proved."""
    return re.match(r"textwrap ([^,]+),", (ROOT / "VERSION").read_text())[1]


# ---- The kit


def kit():
    """The folder of the Rattle kit, if its command is on the PATH."""
    command = shutil.which("rt")
    return pathlib.Path(command).resolve().parent.parent if command else None


def kit_version():
    return run(["rt", "version"]).strip()


def link_all(folder, to, but=()):
    """Makes a folder with a link to each entry of another, but for those that are named."""
    to.mkdir()
    for entry in folder.iterdir():
        if entry.name not in but:
            (to / entry.name).symlink_to(entry)


def linked_kit(folder, room):
    """Makes a kit of links to another, whose clang keeps what it was given in the room, and which links nothing.
    `rt` finds its kit by where its own two files stand, so these are copies."""
    to = room / "kit"
    link_all(folder, to, ["bin", "toolchain"])
    link_all(folder / "bin", to / "bin", ["rt", "rtlib.py", "rattle-link"])
    for name in ("rt", "rtlib.py"):
        shutil.copy2(folder / "bin" / name, to / "bin")
    link_all(folder / "toolchain", to / "toolchain", ["bin"])
    link_all(folder / "toolchain/bin", to / "toolchain/bin", ["clang"])
    clang = CLANG.format(clang=folder / "toolchain/bin/clang", room=room)
    for path, text in ((to / "toolchain/bin/clang", clang), (to / "bin/rattle-link", LINKER)):
        path.write_text(text)
        path.chmod(0o755)


# ---- What is compiled


class Crate(NamedTuple):
    """A crate that the kit makes a file of: an archive, or a program."""

    name: str
    is_program: bool

    @property
    def folder(self):
        return CRATES / self.name

    @property
    def built(self):
        return self.folder / "out" / (f"{self.name}.o" if self.is_program else f"lib{self.name}.a")

    def build(self, command="rt", target=()):
        """What `rt` says while it proves and builds the crate, which for a program is part of a run."""
        words = ["run", self.name, *target, "--", "--version"] if self.is_program else ["lib", *target]
        return run([command, *words], self.folder)


class Module:
    """A module that was kept in a room, with the words that the compiler was called with."""

    def __init__(self, room, triple):
        self.room, self.triple = room, triple

    def text(self):
        return self.translated("-S", "-emit-llvm", "-Xclang", "-disable-llvm-passes")

    def translated(self, *more, kind="ir", file="module", triple=None):
        """What the kit's compiler makes of a file in the same words, but for those that say what of and what
        for."""
        words = (self.room / "words").read_text().splitlines()
        for before, replaced in (("-x", kind), ("-o", "made"), (kind, file)):
            words[words.index(before) + 1] = replaced
        words = [re.sub(r"^--target=.*", f"--target={triple or self.triple}", word) for word in words if word != "-c"]
        run([kit() / "toolchain/bin/clang", *words, *more], self.room)
        return (self.room / "made").read_text()


@contextlib.contextmanager
def unchanged(folder, room):
    """Gives each file of a folder back what it had, once all is done."""
    shutil.copytree(folder, room / "before", ignore=lambda _, names: [it for it in names if (folder / it).is_dir()])
    try:
        yield
    finally:
        shutil.copytree(room / "before", folder, dirs_exist_ok=True)


@contextlib.contextmanager
def module_of(crate, target):
    """Has a kit that keeps it prove a crate, which is built, for a target, and compile its module. What stands in
    the crate's folder `out` stays as it was."""
    with tempfile.TemporaryDirectory() as room:
        room = pathlib.Path(room)
        linked_kit(kit(), room)
        before = crate.built.read_bytes()
        with unchanged(crate.built.parent, room):
            said = crate.build(room / "kit/bin/rt", ["--target", target])
            is_same = crate.built.read_bytes() == before
        if not re.search(rf"^logic=proved .*\btarget={target} ", said, re.M):
            stop(f"there is no verdict for {target}:\n{said[-4000:]}")
        if target == X86_64 and not is_same:
            stop(f"{crate.name} is built otherwise where its module is kept")
        yield Module(room, target)
