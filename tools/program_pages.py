#!/usr/bin/env python3
"""Writes the manual pages of the programs, and their completions for bash, zsh and fish: program_pages.py SHARE

SHARE is the folder that they are installed in, such as /usr/local/share. The options are those of the help of
each program, in its source.
"""
import os
import pathlib
import re
import sys

sys.dont_write_bytecode = True
import program_options

ROOT = pathlib.Path(__file__).resolve().parent.parent
FILES = ROOT / "packaging"
VERSION = re.match(r"textwrap ([^,]+),", (ROOT / "VERSION").read_text())[1]


def roff(text):
    """A text as a manual page has it."""
    text = text.replace("\\", "\\e").replace("-", "\\-")
    return re.sub(r"^([.'])", r"\\&\1", text, flags=re.M)


def option_entry(option, more):
    """An entry of the manual page for an option, with what the page says beside its help."""
    short = [f"-{option.letter}"] if option.letter else []
    names = roff(", ".join([*short, f"--{option.name}"]))
    value = f" \\fI{roff(option.value)}\\fR" if option.value else ""
    said = option.help if option.help.endswith(".") else f"{option.help}."
    return f".TP\n\\fB{names}\\fR{value}\n{roff(said)}\n{more}"


def manual_of(program):
    """Its manual page: the text in packaging, with an entry for each option and each example of the help."""
    text = (FILES / f"{program}.1").read_text().replace("@VERSION@", VERSION)
    front, rest = text.split("@OPTIONS@\n")
    beside, behind = rest.split("@END@\n")
    parts = re.split(r"^([a-z][a-z-]*)\n", beside, flags=re.MULTILINE)
    more = dict(zip(parts[1::2], parts[2::2]))
    entries = [option_entry(option, more.pop(option.name, "")) for option in program_options.options(program)]
    if parts[0] or more:
        sys.exit(f"program_pages: packaging/{program}.1 says something of {' '.join(more) or 'no option'}, which the help has not")
    found = program_options.examples(program)
    examples = "".join(f".TP\n.B {roff(call)}\n{roff(said)}.\n" for call, said in found)
    return front + "".join(entries) + behind.replace("@EXAMPLES@\n", examples)


def completion_of_bash(program):
    options = program_options.options(program)
    names = " ".join(f"--{option.name}" for option in options)
    valued = " | ".join(name for option in options if option.value for name in spellings(option))
    return f"""# Completions of {program} for bash.
_{program}() {{
    local word=${{COMP_WORDS[COMP_CWORD]}} before=${{COMP_WORDS[COMP_CWORD - 1]}}
    COMPREPLY=()
    case $before in
        {valued}) return ;;
    esac
    if [[ $word == -* ]]; then
        mapfile -t COMPREPLY < <(compgen -W '{names}' -- "$word")
    fi
}}
complete -o default -F _{program} {program}
"""


def spellings(option):
    return ([f"-{option.letter}"] if option.letter else []) + [f"--{option.name}"]


def completion_of_fish(program):
    lines = [f"# Completions of {program} for fish."]
    for option in program_options.options(program):
        letter = f" -s {option.letter}" if option.letter else ""
        value = " -x" if option.value else ""
        lines.append(f"complete -c {program}{letter} -l {option.name}{value} -d {quoted(option.help)}")
    return "\n".join(lines) + "\n"


def completion_of_zsh(program):
    lines = [f"#compdef {program}", f"# Completions of {program} for zsh.", "_arguments \\"]
    for option in program_options.options(program):
        # The help and the version stand alone; all others may come again.
        front = "(- *)" if option.name in ("help", "version") else "*"
        value = f":{option.value.lower().replace(':', chr(92) + ':')}:" if option.value else ""
        said = re.sub(r"([\[\]:])", r"\\\1", option.help)
        for name in spellings(option):
            lines.append(f"    {quoted(f'{front}{name}[{said}]{value}')} \\")
    return "\n".join([*lines, "    '*:file:_files'"]) + "\n"


def quoted(text):
    """A text as the shells read it."""
    return "'" + text.replace("'", "'\\''") + "'"


# The manual page of a program, and its completions by the shell: how each is written, and where it stands.
PAGES = {
    "1": (manual_of, "man/man1/{}.1"),
    "bash": (completion_of_bash, "bash-completion/completions/{}"),
    "zsh": (completion_of_zsh, "zsh/site-functions/_{}"),
    "fish": (completion_of_fish, "fish/vendor_completions.d/{}.fish"),
}


def install(share):
    """Writes all of these into a folder as /usr/share is one, for all to read."""
    os.umask(0o022)
    for name in program_options.PROGRAMS:
        for text_of, place in PAGES.values():
            path = share / place.format(name)
            path.parent.mkdir(parents=True, exist_ok=True)
            path.write_text(text_of(name))
            path.chmod(0o644)


if __name__ == "__main__":
    if sys.argv[1:] in (["--help"], ["-h"]):
        print(__doc__.strip())
        sys.exit()
    if len(sys.argv) != 2:
        sys.exit(__doc__)
    install(pathlib.Path(sys.argv[1]))
