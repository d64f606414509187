#!/usr/bin/env python3
"""Lists the house words of README.md, CHANGES.md and docs/*.md: words that are right in themselves, and together make a page read as translated.

usage: tools/prose.py             prints each use with its sentence and the English instead; silent, with status 0, if there is none
       tools/prose.py FILE ..     those of these pages alone, from any folder
       tools/prose.py --crates    those of the comments of crates/*/src and crates/*/specs
       tools/prose.py --words     how many words all pages have together; status 1 if they are too many

Code, quotations and the targets of links are not looked at. A use that is plain English in its sentence is in tools/prose.txt (of comments: in
tools/prose_crates.txt), a line each: the word as it is printed, a colon, a space, the sentence. A sentence that changes leaves the list by that, and
somebody looks at it again; a line whose sentence is in no page is reported. `--list` prints the uses as lines of the list.
"""
import glob
import os
import re
import sys
from dataclasses import dataclass

TOP = os.path.dirname(os.path.dirname(os.path.abspath(__file__)))
FOLDER = os.path.dirname(os.path.abspath(__file__))
MOST_WORDS = 42_000
OPERATORS = {"README.md", "CHANGES.md", "USING.md", "USING-POOLS.md", "OPERATING.md", "CLIENTS.md"}
OWN = "(?:one's|its|their|his|her|our|your|my)"
# A word as it is printed, its uses, and the English instead. A space is any space.
HOUSE = (
    ("where", r"where", "if, when"),
    ("behind", r"behind(?! (?:nginx|(?:a|the|any) (?:reverse )?proxy|a lock|TLS))", "after"),
    ("before", r"(?:not|never|nothing|no \w+) (?:[\w']+ ){1,4}before(?= (?:[\w']+ ){1,4}(?:is|are|was|were|has|have) )", "until, only after"),
    ("beside", r"beside", "next to, compared with, as well as"),
    ("told", r"told|tells?|telling", "known, visible; says, reports"),
    ("in a hundred", r"(?:in|of) a hundred", "per cent"),
    ("stands", r"stands?|stood", "is, exists, depends on"),
    ("comes", r"(?<!to\s)(?:comes?|came)(?! (?:from|first|next|last|with|before|after))", "is returned"),
    ("dear", r"dear(?:er|est)?", "costly, most expensive"),
    ("of one's own", rf"of {OWN} own", "its own, separate"),
    ("kin", r"kin", "similar ones"),
    ("words", r"words? (?:of|on|for) (?:a|the|its|each) (?:command line|command|program|process|run)|(?:the|its) words (?:ask|are given|given|say)|wrong words",
     "arguments"),
    ("a front of", r"(?<!in\s)fronts? of", "a prefix of"),
    ("a piece", r"pieces?", "a part"),
    ("as it was", r"as (?:it|they) (?:was|were)", "unchanged"),
    ("is had", r"(?:is|are|was|were|be) had", "exists, is known"),
    ("is let go", r"(?:is|are|was|were|be|been) let go", "is closed, is dropped"),
    ("is there", r"(?:is|are|was|were) there(?! (?:a|an|any|no))", "exists"),
    ("so that no", r"so that (?:no|nothing|nobody|none)", "say what does happen"),
    ("whose is that of", r"whose(?= [^.;:|]{1,60} (?:is|are) (?:that|those) of)", "has the same .. as"),
    ("That ..", r"\A(?-i:That) (?:no|the|an?|it|they|each|every|all|what|there|nothing|one|two|such|its)", "put the thing first"),
    ("want of memory", r"wants? of|wanting", "out of memory"),
    ("opener's count", r"opener's count", "the store reported a fault"),
    ("a claim gets", r"claims? gets?", "a claim returns"),
    ("a stop", r"(?:a|each|every|one) stops?|stores? that stops?", "a crash, a power failure"),
    ("must fail", r"edits? that must fail|must-fail edits?", "mutation tests"),
    ("the gate", r"the gates?", "CI"),
    ("trial crates", r"trial crates?", "test crates"),
    ("house", r"house|storeys?|rooms|the ground", "layers, modules"),
    ("messages", r"(?:output|errors?) (?:or|and) messages|to messages", "standard error"),
    ("outlives", r"outlives?|(?:is|are) kept in", "is stored in, persists"),
    ("synced", r"synced", "durable, written by fsync"),
    ("shelves", r"shel(?:f|ves)", "the register's tables in memory"),
    ("what is left of", r"what is left of", "the free blocks of"),
    ("reckon", r"reckon(?:s|ed)?", "measure it, or leave it out"),
)
# Of pages alone: a comment names a thing by such a clause.
OF_PAGES = (("What ..", r"\A(?-i:What)(?= [^?]*\b(?:is|are|has|have|does|do|holds)\b[^?]*\.)", "put the thing first"),)
# Of the pages for operators: words that docs/GLOSSARY.md defines.
OURS = (
    ("lane", r"lanes?|doors?", "listener, a worker's connections"),
    ("desk", r"desks?", "request handler"),
    ("keeper", r"keepers?", "store"),
)
HIDDEN = re.compile(
    r"^ *(```|~~~).*?^ *\1"                     # a block of code
    r"|(?<=\n\n)(?: {4}[^\n]*\n+)+"               # the same, indented
    r"|(?P<ticks>`+)(?!`).+?(?<!`)(?P=ticks)(?!`)"
    r"|<!--.*?-->|<[a-zA-Z/][^>\n]*>"
    r"|(?<=\])\([^)\s]*\)|https?://[^\s)>]+"    # where a link leads to
    r'|"[^"\n]*(?:\n[^"\n]+)?"',
    re.M | re.S)
# Between two sentences: an empty line, the begin of an item, a heading or a cell, or the end of a sentence.
BETWEEN = re.compile(r"\n\s*\n|\n(?=\s*(?:[-*]|\d+\.|#+|>) )|(?<=[.!?])(?:\*\*|[)\"])?\s+(?=[^a-z\s])|\n?(?<!\\)\|")
MARKER = re.compile(r"\A\s*(?:(?:[-*>]|\d+\.|#+)\s+)*")


@dataclass(frozen=True)
class Use:
    path: str
    line: int
    word: str
    english: str
    sentence: str

    def entry(self):
        return f"{self.word}: {self.sentence}"


def any_of(words):
    """A pattern of whole words; a name with `_` or `-` is another word."""
    uses = "|".join(f"(?P<word{number}>{pattern})" for number, (_, pattern, _) in enumerate(words))
    return re.compile(rf"(?<![\w-])(?:{uses})(?![\w-])".replace(" ", r"\s+"), re.I)


def hidden(text):
    """The text with `~` in place of what is no prose."""
    return HIDDEN.sub(lambda found: re.sub(r"[^\n]", "~", found[0]), text)


def sentences(text):
    """Each sentence's begin and end."""
    begin = 0
    for between in BETWEEN.finditer(text):
        yield begin, between.start()
        begin = between.end()
    yield begin, len(text)


def uses_in(path, text, first_line=1):
    """The uses of house words in a text of Markdown."""
    shown = hidden(text)
    words = HOUSE + OF_PAGES * path.endswith(".md") + OURS * (os.path.basename(path) in OPERATORS)
    pattern = any_of(words)
    for begin, end in sentences(shown):
        begin += len(MARKER.match(shown[begin:end])[0])
        for found in pattern.finditer(shown[begin:end]):
            name, _, english = words[int(found.lastgroup.removeprefix("word"))]
            line = first_line + text.count("\n", 0, begin + found.start())
            yield Use(path, line, name, english, " ".join(text[begin:end].split()))


def pages():
    return ["README.md", "CHANGES.md"] + sorted(os.path.relpath(path, TOP) for path in glob.glob(f"{TOP}/docs/*.md"))


def read(path):
    with open(os.path.join(TOP, path), encoding="utf-8") as file:
        return file.read()


def comments(path):
    """The comments of a source: each first line's number, and the text of the lines that follow one another."""
    mark = re.compile(r"\s*(?:--(?: |$)|//[/!]?)\s?(.*)")
    begin, lines = 1, []
    for number, line in enumerate(read(path).splitlines() + [""], 1):
        found = mark.match(line)
        if found:
            begin, lines = (begin, lines) if lines else (number, lines)
            lines.append(found[1])
        elif lines:
            yield begin, "\n".join(lines)
            lines = []


def crates():
    found = glob.glob(f"{TOP}/crates/*/src/**/*.rt", recursive=True) + glob.glob(f"{TOP}/crates/*/specs/**/*.antt", recursive=True)
    return sorted(os.path.relpath(path, TOP) for path in found)


def plain(name):
    """The lines of a list of uses that are plain English."""
    path = os.path.join(FOLDER, name)
    if not os.path.exists(path):
        return set()
    with open(path, encoding="utf-8") as file:
        return {line.strip() for line in file if line.strip() and not line.startswith("#")}


def count_words():
    counts = {path: len(read(path).split()) for path in pages()}
    total = sum(counts.values())
    for path, count in counts.items():
        print(f"{count:7,} {path}")
    print(f"{total:7,} of {MOST_WORDS:,} words")
    return total > MOST_WORDS


def main():
    options = {word for word in sys.argv[1:] if word.startswith("--")}
    files = [os.path.abspath(word) for word in sys.argv[1:] if word not in options]
    if options - {"--crates", "--words", "--list"}:
        sys.exit(__doc__)
    if "--words" in options:
        sys.exit(count_words())
    if "--crates" in options:
        known, found = plain("prose_crates.txt"), [use for path in crates() for line, text in comments(path) for use in uses_in(path, text, line)]
    else:
        known, found = plain("prose.txt"), [use for path in files or pages() for use in uses_in(path, read(path))]
    left = [use for use in found if use.entry() not in known]
    gone = [] if files else sorted(known - {use.entry() for use in found})
    for use in left:
        print(use.entry() if "--list" in options else f"{use.path}:{use.line}: {use.word} ({use.english}): {use.sentence}")
    for entry in gone:
        print(f"in no page: {entry}")
    if left or gone:
        print(f"{len(left)} uses of house words" + (f", {len(gone)} lines of the list in no page" if gone else ""), file=sys.stderr)
    sys.exit(bool(left or gone))


if __name__ == "__main__":
    main()
