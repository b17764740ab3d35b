"""Styles (SGR) for `tools/terminal_compare`: what their parameters set, which settings the library takes them
for, and texts in styles that are drawn."""
import functools

# ---- What parameters set

# What one sets, beside colours, and what one ends. A terminal may know settings that the library does not (26,
# 60 to 64, 73, 74): they are to be kept.
SETS = {1: "bold", 2: "faint", 3: "italic", 4: "underline", 5: "blink", 6: "blink", 7: "inverse",
        8: "hidden", 9: "crossed out", 20: "gothic", 21: "underline", 26: "spacing", 51: "frame", 52: "frame",
        53: "overline", 73: "height", 74: "height", **dict.fromkeys(range(11, 20), "font"),
        **dict.fromkeys((*range(30, 38), *range(90, 98)), "foreground"),
        **dict.fromkeys((*range(40, 48), *range(100, 108)), "background"),
        **dict.fromkeys(range(60, 65), "ideogram")}
ENDS = {10: ("font",), 22: ("bold", "faint"), 23: ("italic", "gothic"), 24: ("underline",), 25: ("blink",),
        27: ("inverse",), 28: ("hidden",), 29: ("crossed out",), 39: ("foreground",), 49: ("background",),
        50: ("spacing",), 54: ("frame",), 55: ("overline",), 59: ("line colour",), 65: ("ideogram",),
        75: ("height",)}
COLOURS = {38: "foreground", 48: "background", 58: "line colour"}
# How many parameters a colour takes behind its first, by what follows that.
COLOUR_LENGTHS = {5: 2, 2: 4}


@functools.lru_cache(maxsize=None)
def rendition_after(rendition, parameters):
    """The attributes after one sequence of SGR, each with the parameters that set it. A colour that is not whole
    sets nothing, and takes the rest."""
    found = dict(rendition)
    left = list(parameters) or [0]
    while left:
        code = left.pop(0)
        if code == 0:
            found.clear()
        elif code in COLOURS:
            length = COLOUR_LENGTHS.get(left[0] if left else None, len(left) + 1)
            if length <= len(left):
                found[COLOURS[code]] = tuple(left[:length])
            del left[:length]
        elif code in SETS:
            found[SETS[code]] = (code,)
        for kind in ENDS.get(code, ()):
            found.pop(kind, None)
    return frozenset(found.items())


# ---- The settings that the library takes them for

KNOWN = frozenset((*range(26), *range(27, 50), *range(51, 56), 58, 59, *range(90, 98), *range(100, 108)))


def number(field):
    """The number that a field begins with: 0 where none is written."""
    return int(field.partition(":")[0] or 0)


def fields_taken(fields):
    """How many fields the first setting takes: none where the library does not know it."""
    code = number(fields[0])
    if ":" in fields[0]:
        return 1 if code == 4 or code in COLOURS else 0
    if code in COLOURS:
        length = COLOUR_LENGTHS.get(number(fields[1]) if len(fields) > 1 else None, len(fields))
        return length + 1 if length < len(fields) else 0
    return 1 if code in KNOWN else 0


def settings(parameters):
    """The settings that parameters are, each with whether the library knows it: one that it does not know takes
    the rest."""
    fields, found = parameters.split(";"), []
    while fields:
        taken = fields_taken(fields)
        found.append((";".join(fields[:taken or None]), taken > 0))
        del fields[:taken or None]
    return found


# ---- Drawn styles

# Parameters of which one takes back the other, or might on some terminal.
RELATED = ((0, 1), (1, 2, 22), (1, 21, 22), (3, 20, 23), (4, 21, 24), (5, 6, 25), (7, 27), (8, 28), (9, 29),
           (10, 11, 19, 20), (26, 50), (32, 39, 97), (42, 49, 107), (51, 52, 54), (53, 55), (60, 64, 65),
           (73, 74, 75))


def drawn_numbers(rng):
    """The parameters that a text is to have: any, most of which the library knows, or few that are related."""
    if rng.random() < 0.5:
        return [*range(128), *sorted(KNOWN)]
    return [*rng.choice(RELATED), *rng.choice(RELATED), rng.randint(0, 127)]


def drawn_number(rng, numbers):
    """A parameter, at times none, a greater one, or with a zero before it."""
    kind = rng.random()
    if kind < 0.04:
        return "" if kind < 0.02 else str(rng.randint(128, 300))
    return "0" * (kind < 0.06) + str(rng.choice(numbers))


def drawn_part(rng):
    """A part of a colour; few are empty or too great."""
    kind = rng.random()
    return "" if kind < 0.03 else str(rng.randint(256, 400) if kind < 0.06 else rng.randint(0, 255))


def drawn_colour(rng, _):
    """38, 48 or 58 with a colour, which semicolons or colons part, at times with too few parts or too many."""
    mode = rng.choice((5, 5, 5, 2, 2, 2, 2, rng.randint(0, 9)))
    count = {5: 1, 2: 3}.get(mode, 2) if rng.random() < 0.85 else rng.randint(0, 7)
    parts = [drawn_part(rng) for _ in range(count)]
    sign = rng.choice(";:")
    if sign == ":" and mode == 2 and rng.random() < 0.5:
        parts.insert(0, rng.choice(("", "", "1")))
    return sign.join((str(rng.choice(list(COLOURS))), str(mode), *parts))


def drawn_joined(rng, numbers):
    """An underline of some kind, or other numbers that colons join."""
    if rng.random() < 0.8:
        return "4:%d" % rng.choice((0, 1, 2, 3, 3, 4, 5, 5, 6))
    return ":".join(drawn_number(rng, numbers) for _ in range(rng.randint(2, 4)))


def drawn_style(rng, numbers):
    """A style of some settings; few have very many, or none."""
    if rng.random() < 0.03:
        return "\x1b[m"
    count = rng.choice((1, 1, 1, 1, 2, 2, 3, 4, 6)) if rng.random() < 0.99 else rng.randint(10, 30)
    draw = (drawn_number, drawn_number, drawn_number, drawn_number, drawn_colour, drawn_joined)
    return "\x1b[%sm" % ";".join(rng.choice(draw)(rng, numbers) for _ in range(count))


def drawn_text(rng, at, word):
    """Words with styles before, in and behind them. Each parameter up to 127 stands alone in one of 128 texts
    that follow one another."""
    numbers, words, parts = drawn_numbers(rng), rng.randint(5, 40), []
    alone = rng.randrange(words)
    for position in range(words):
        text = word(rng)
        if position == alone or rng.random() < 0.5:
            place = rng.randint(0, len(text))
            style = "\x1b[%dm" % (at % 128) if position == alone else drawn_style(rng, numbers)
            text = text[:place] + style + text[place:]
        parts.append(text + rng.choice((" ", " ", " ", " ", "  ", "\n")))
    return "".join(parts)
