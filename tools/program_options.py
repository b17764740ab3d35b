"""The options of the programs, read off their help: the text `HELP` in the source of each, which is proved
to be what `--help` writes, and a test compares it with what `clap` makes of the command line.
"""
import dataclasses
import pathlib
import re

CRATES = pathlib.Path(__file__).resolve().parent.parent / "crates"
# The crates of the programs, which bear the names of modules of filter_programs, by the names that these are
# installed under.
PROGRAMS = {"reflow": "reflow", "textwrap": "fill", "hyphenate": "hyphenate"}
LINE = re.compile(r"  (?:-(\w), |    )--([a-z-]+)(?: <([^>]+)>)? +(.*)")


@dataclasses.dataclass
class Option:
    """An option: its letter, its name, what its value is called, and what it does."""

    letter: str
    name: str
    value: str
    help: str


def help_text(program):
    """What a program writes at `--help`."""
    source = CRATES / f"filter_programs/src/{PROGRAMS[program]}/arguments.rt"
    return re.search(r'pub const HELP: &str = "(.*?)";', source.read_text(), re.DOTALL)[1]


def section(program, title):
    """The lines of the help under a title."""
    return re.search(rf"^{title}:\n(.*?)(?:\n\n|\Z)", help_text(program), re.DOTALL | re.MULTILINE)[1].rstrip("\n").split("\n")


def options(program):
    """The options in their order."""
    found = [LINE.fullmatch(line) for line in section(program, "Options")]
    return [Option(*(part or "" for part in option.groups())) for option in found]


def examples(program):
    """Pairs of a call and what it does."""
    return [re.split(r" {2,}", line.strip(), maxsplit=1) for line in section(program, "Examples")]
