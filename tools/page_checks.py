"""What `tools/pages --check` asks of all pages: that links lead somewhere, that sentences are short, that
there are not too many words, and that numbers and names are right."""
import re
import subprocess

import rattle_items as items

ROOT = items.ROOT
# The names that may have two meanings, a line each, with the reason.
TWO_MEANINGS = ROOT / "tools/two_meanings"

# What all pages may have together, and what of it may be written by hand.
WORDS, WORDS_BY_HAND = 50_000, 30_000
# Words of a sentence in the README, and in docs/, where some may be longer.
README_SENTENCE, SENTENCE, LONG_SENTENCES = 30, 35, 10

FENCED = re.compile(r"^(`{3,4})\w*\n.*?^\1$", re.MULTILINE | re.DOTALL)
GENERATED = re.compile(
    r"<!-- (contents|crates|options|laws|clauses|definitions|calls|folders|option files|planted bugs|code)\b"
    r"[^>]*-->.*?<!-- end of \1 -->",
    re.DOTALL,
)
LINK = re.compile(r"\]\(([^)\s]+)\)")


def pages():
    """The pages of the repository, with their texts."""
    names = subprocess.run(
        ["git", "ls-files", "*.md"], cwd=ROOT, capture_output=True, text=True, check=True
    ).stdout.split("\n")
    for name in names:
        if name and (ROOT / name).exists():
            yield ROOT / name, (ROOT / name).read_text()


def by_hand(page, text):
    """What of a page is written by hand."""
    return "" if page.name == "API.md" else GENERATED.sub("", text)


def word_counts():
    """Of each page its name, its words, and how many of these are written by hand."""
    for page, text in pages():
        yield page.relative_to(ROOT), len(text.split()), len(by_hand(page, text).split())


def anchor(title):
    """The anchor of a heading, as the usual viewers make it."""
    return re.sub(r"[^\w\- ]", "", title.lower()).replace(" ", "-")


def anchors(text):
    """The anchors of a page."""
    return {anchor(it) for it in re.findall(r"^#+ (.*)$", FENCED.sub("", text), re.MULTILINE)}


def broken_links():
    """Each link to a file, a line or a heading that is not there."""
    for page, text in pages():
        for target in LINK.findall(FENCED.sub("", text)):
            if re.match(r"[a-z]+:", target):
                continue
            place, _, part = target.partition("#")
            file = (page.parent / place).resolve() if place else page
            if not file.exists():
                yield page, target
            elif part and file.suffix == ".md" and part not in anchors(file.read_text()):
                yield page, target


def prose(text):
    """The sentences of a page: no code, no tables, no headings."""
    text = FENCED.sub("\n\n", re.sub(r"<!--.*?-->", "", text, flags=re.DOTALL))
    lines = []
    for line in text.split("\n"):
        if line.startswith(("|", "    ", "#", "!")):
            line = ""
        lines.append(re.sub(r"^\s*([-*]|\d+\.) ", "\n\n", line))
    for part in re.split(r"\n\s*\n", "\n".join(lines)):
        part = re.sub(r"`[^`]*`", "code", re.sub(r"\[([^\]]*)\]\([^)]*\)", r"\1", part))
        yield from (it.strip() for it in re.split(r"(?<=[.?!])[)*\"]*\s+", part) if it.strip())


def long_sentences(page, text, most):
    """The sentences of a page with more words than that."""
    return [it for it in prose(by_hand(page, text)) if len(it.split()) > most]


def unknown_names():
    """Each name of code in a page that no file of the repository has; CHANGELOG.md may name what is gone."""
    listed = subprocess.run(["git", "ls-files"], cwd=ROOT, capture_output=True, text=True, check=True).stdout
    known = set()
    for name in listed.splitlines():
        if not name.endswith((".md", ".s", ".svg", ".png", "try.html")) and (ROOT / name).is_file():
            known.update(re.findall(r"\w+", (ROOT / name).read_text(errors="replace")), re.findall(r"\w+", name))
    for page, text in pages():
        if page.name == "CHANGELOG.md":
            continue
        for span in re.findall(r"`([^`\n]+)`", FENCED.sub("", by_hand(page, text))):
            for word in re.findall(r"\b[a-z]\w*_\w*[a-z]\b", span):
                if '"' not in span and "\\" not in span and word not in known:
                    yield f"{page.relative_to(ROOT)}: no file has the name {word}"


def wrong_numbers():
    """The numbers of the README that are not those of the sources."""
    text = (ROOT / "README.md").read_text()
    sources = "\n".join(it.read_text() for it in items.CRATES.glob("*/src/**/*.rt"))
    for what, number in (
        ("planted bugs", len(list(items.CRATES.glob("*/must-fail/*.edit")))),
        ("tests", len(re.findall(r"^\s*#\[test\]", sources, re.MULTILINE))),
        ("rows", int(re.search(r"\d+", (items.CRATES / "textwrap_rows/stdout").read_text())[0])),
    ):
        for said in re.findall(rf"(\d[\d,]*) {what}", text):
            if int(said.replace(",", "")) != number:
                yield f"README.md: {said} {what}; there are {number}"


def stale_page():
    """What is wrong with docs/try.html, which another tool makes."""
    command = [ROOT / "tools/try_page", "--check"]
    yield from subprocess.run(command, capture_output=True, text=True).stdout.splitlines()


def new_meanings():
    """Each name that has a second meaning, in crates of which one uses the other, without a reason."""
    reasons = dict(line.partition(": ")[::2] for line in TWO_MEANINGS.read_text().splitlines())
    for name, crates in items.names_with_two_meanings().items():
        if not reasons.get(name):
            yield f"tools/two_meanings: no reason why {name} has a meaning in each of {', '.join(crates)}"


def faults():
    """What is wrong with the pages, a line each."""
    yield from wrong_numbers()
    yield from stale_page()
    yield from unknown_names()
    yield from new_meanings()
    for page, target in broken_links():
        yield f"{page.relative_to(ROOT)}: the link {target} leads nowhere"
    counts = list(word_counts())
    for most, number, what in ((WORDS, 1, "words"), (WORDS_BY_HAND, 2, "words by hand")):
        words = sum(it[number] for it in counts)
        if words > most:
            yield f"the pages have {words} {what}; {most} are the most"
    readme = ROOT / "README.md"
    for it in long_sentences(readme, readme.read_text(), README_SENTENCE):
        yield f"README.md: a sentence of {len(it.split())} words: {it[:60]}.."
    long = [
        (page, it)
        for page, text in pages()
        if page.parent == ROOT / "docs"
        for it in long_sentences(page, text, SENTENCE)
    ]
    if len(long) > LONG_SENTENCES:
        yield f"docs/ has {len(long)} sentences of more than {SENTENCE} words; {LONG_SENTENCES} are the most"
        for page, it in long:
            yield f"  {page.name}: {len(it.split())} words: {it[:60]}.."
