"""A pane of tmux as a terminal, for `tools/terminal_compare`: the cells that rows of text have in it, read off
what `capture-pane -e` writes, by tmux 3.3a and 3.5a.

The server is one of its own, without a configuration, and ends with the run. Rows are written by `cat` into a
pane that is wide enough for them and keeps them all; once tmux has read all that it wrote, the pane is captured.
"""
import collections
import functools
import os
import pathlib
import re
import subprocess
import sys
import unicodedata

import terminal_styles

BAR = "│"
NAME = "terminal_compare"
# Rows that a pane keeps beside those that it shows, and columns that it may have at most.
HISTORY, COLUMNS = 1_000_000, 10_000
SECONDS = 120
# Writes a file, and says so once tmux has answered whether it is well: then it has read all that was before. It
# waits to be killed, as tmux may miss that a pane has died.
WRITE = """stty -icanon -echo; cat "$1"; printf '\\033[5n'; dd bs=1 count=4 of=/dev/null status=none
           tmux wait-for -S written; exec cat"""

PLAIN = "\x1b[m\x1b]8;;\x1b\\"
# A plain bar before a row that goes on with what the row before it left open: cursor and pen are saved before
# the bar, and set back behind it. A capture does not say which link a row begins with.
FRONT = "\x1b7" + PLAIN + BAR + "\x1b8\x1b[C"

# What tmux writes for what a cell has; 5:3 is how it writes 53.
ATTRIBUTES = {"1": "bold", "2": "faint", "3": "italic", "4": "underline", "4:2": "underline", "4:3": "underline",
              "4:4": "underline", "4:5": "underline", "5": "blink", "7": "inverse", "8": "hidden",
              "9": "crossed out", "53": "overline", "5:3": "overline"}
COLOURS = {"38": "foreground", "48": "background", "58": "line colour"}
OWN_COLOURS = {"39": "foreground", "49": "background", "59": "line colour"}
WRITTEN = re.compile("(\x1b\\[[0-9;:]*m|\x1b\\]8;[^;]*;[^\x1b]*\x1b\\\\)")
SEQUENCE = re.compile("\x1b\\[[0-?]*[ -/]*[@-~]|\x1b\\][^\x07\x1b]*(?:\x07|\x1b\\\\)|\x1b[0-~]")

# What a cell shows, its attributes and colours, and its link.
Cell = collections.namedtuple("Cell", "data rendition link")
NOTHING = frozenset()

# The colours and underlines that it takes for such.
BYTE = "0*(?:25[0-5]|2[0-4][0-9]|1?[0-9]?[0-9])"
TAKEN = re.compile("""
    0*4 : 0*[0-5]
    | 0*(?:38|48) ; 0*5 ; [^;]*
    | 0*58 ; 0*5 ; BYTE
    | 0*(?:38|48|58) ; 0*2 ; BYTE ; BYTE ; BYTE
    | 0*(?:38|48) : 0*5 (?: : [0-9]*){1,5}
    | 0*58 : 0*5 : BYTE (?: : [0-9]*){0,4}
    | 0*(?:38|48|58) : 0*2 : BYTE : BYTE : BYTE
    | 0*(?:38|48|58) : 0*2 : [0-9]* : BYTE : BYTE : BYTE (?: : [0-9]*)?
""".replace("BYTE", BYTE), re.VERBOSE)


def reads(parameters):
    """Whether tmux reads the parameters of a style as others do, or the library keeps what it reads otherwise.

    It drops a sequence of 24 parameters, or of 64 bytes. What it does not take for a setting it skips, where the
    library takes it for one that replaces those before it: underlines but 4:0 to 4:5; colours that colons join of
    too few parts, or of eight; by 2 with a part that is empty or above 255; and of 58 by 5 too. A colour by 2
    that semicolons part it takes for one only where each part is a number up to 255, and one by 5 or 2 only where
    no colon stands behind that: else it reads the parts as settings of their own."""
    if parameters.count(";") >= 23 or len(parameters) >= 64:
        return False
    return all(TAKEN.fullmatch(setting) or re.fullmatch("[0-9]*", setting) or not is_known
               for setting, is_known in terminal_styles.settings(parameters))


# ---- What tmux writes


@functools.lru_cache(maxsize=None)
def rendition_after(rendition, parameters):
    """The attributes and colours behind a style that tmux wrote."""
    found, fields = dict(rendition), parameters.split(";")
    while fields:
        field = fields.pop(0)
        if field in ("", "0"):
            found.clear()
        elif field in COLOURS:
            length = {"5": 2, "2": 4}[fields[0]]
            found[COLOURS[field]] = ";".join(fields[:length])
            del fields[:length]
        elif field in OWN_COLOURS:
            found.pop(OWN_COLOURS[field], None)
        elif field in ATTRIBUTES:
            found[ATTRIBUTES[field]] = field
        else:
            kind = {"3": "foreground", "9": "foreground", "4": "background", "10": "background"}[field[:-1]]
            found[kind] = field
    return frozenset(found.items())


def link_written(sequence):
    """The id and the target of a link that tmux wrote; nothing where it ends."""
    name, target = sequence[4:-2].split(";", 1)
    return target and "%s %s" % (name.removeprefix("id="), target)


def cells_of(captured):
    """The cells of each row of a capture, which goes on with the styles of the row before it."""
    rendition, found = NOTHING, []
    for line in captured.split("\n"):
        cells, link = [], ""
        for part in filter(None, WRITTEN.split(line)):
            if part.startswith("\x1b]"):
                link = link_written(part)
            elif part.startswith("\x1b["):
                rendition = rendition_after(rendition, part[2:-1])
            else:
                for character in part:
                    if is_joined(character) and cells:
                        cells[-1] = cells[-1]._replace(data=cells[-1].data + character)
                    else:
                        cells.append(Cell(character, rendition, link))
        found.append(cells)
    return found


def is_joined(character):
    """Whether a character joins the one before it, and has no cell of its own."""
    return unicodedata.combining(character) != 0


# ---- The server


class Server:
    """A server of tmux, with its socket in a folder of the run. It ends at the end of a `with`."""

    def __init__(self, folder):
        self.file = pathlib.Path(folder) / "rows"
        self.environment = {**os.environ, "TMUX_TMPDIR": str(folder), "LC_ALL": "C.UTF-8"}
        self.environment.pop("TMUX", None)
        self.version = self.call("-V").split()[-1]

    def __enter__(self):
        self.call("start-server", ";", "set", "-g", "exit-empty", "off", ";",
                  "set", "-g", "history-limit", str(HISTORY), ";",
                  "set", "-g", "default-terminal", "tmux-256color")
        return self

    def __exit__(self, *_):
        self.call("kill-server")

    def call(self, *words):
        """What tmux prints at a command."""
        try:
            done = subprocess.run(["tmux", "-u", "-L", NAME, "-f", "/dev/null", *words], env=self.environment,
                                  stdout=subprocess.PIPE, check=True, encoding="utf-8", timeout=SECONDS)
        except subprocess.TimeoutExpired:
            sys.exit("%s: tmux did not end within %d seconds: %s" % (NAME, SECONDS, " ".join(words)))
        return done.stdout

    def has_links(self):
        """Whether this tmux keeps links."""
        cell, _ = self.rows([["\x1b]8;;there\x1b\\a" + PLAIN + "b"]])[0][0]
        return cell.link != ""

    def rows(self, groups):
        """The cells of each row of some groups of rows, each of which begins with a plain pen."""
        rows = [row if at else PLAIN + row for group in groups for at, row in enumerate(group)]
        self.file.write_text("".join(row + "\n" for row in rows))
        width = 2 * max(len(SEQUENCE.sub("", row)) for row in rows)
        if width > COLUMNS:
            sys.exit("%s: a row may take %d columns, which are too many for tmux" % (NAME, width))
        self.call("new-session", "-d", "-s", "rows", "-x", str(max(80, width)), "-y", "50",
                  "sh", "-c", WRITE, "sh", str(self.file))
        self.call("wait-for", "written")
        found = cells_of(self.call("capture-pane", "-e", "-p", "-t", "rows", "-S", "-", "-E", "-"))
        self.call("kill-session", "-t", "rows")
        if len(found) < len(rows):
            sys.exit("%s: tmux shows %d of %d rows" % (NAME, len(found), len(rows)))
        left = iter(found)
        return [[next(left) for _ in group] for group in groups]

    def lines_between_bars(self, groups):
        """The cells of lines, each between two bars."""
        return self.rows([[BAR + line + BAR for line in group] for group in groups])

    def texts(self, texts):
        """The cells of each row of some texts, each of which is written as it is."""
        groups = self.rows([[FRONT + row + BAR for row in text.split("\n")] for text in texts])
        return [[cells[1:-1] for cells in group] for group in groups]
