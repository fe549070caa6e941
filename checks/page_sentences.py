"""The sentences and the paragraphs of the pages: how long they are."""
import re

from pages import HISTORY, without_blocks

# The most words of a sentence. What stands between back quotes is one word; a cell of a table, a point of a list and a line are one or
# more sentences of their own. A colon or a semicolon ends none.
LONGEST = 40

# The most words of a paragraph, outside of tables.
LONGEST_PARAGRAPH = 120


def pieces_of(text):
    """The parts of a page that are sentences in a row."""
    for line in without_blocks(text).split("\n"):
        line = re.sub(r"``.+?``|`[^`]+`", "`code`", line)
        line = re.sub(r"!?\[([^\]]*)\]\([^)]*\)", r"\1", line)
        yield from line.strip("| ").split(" | ") if line.startswith("|") else [line]


def sentences_of(text):
    for piece in pieces_of(text):
        yield from re.split(r"(?<=[.!?])[\"')*]*\s+", piece)


def sentences(page, text):
    """Sentences that are too long."""
    for sentence in sentences_of(text):
        if len(sentence.split()) > LONGEST:
            yield f"a sentence of {len(sentence.split())} words: {sentence[:60]} .."


def paragraphs(page, text):
    """Paragraphs that are too long, but where changes are told: each of them is one paragraph."""
    for line in without_blocks(text).split("\n") if page not in HISTORY else []:
        if not line.startswith("|") and len(line.split()) > LONGEST_PARAGRAPH:
            yield f"a paragraph of {len(line.split())} words: {line[:60]} .."
