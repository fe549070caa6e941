"""The pages and the other files of the repository, as the checks of the pages see them."""
import functools
import glob
import os
import re

TOP = os.path.dirname(os.path.dirname(os.path.abspath(__file__)))

# What stood somewhere once, and is told of.
HISTORY = ["CHANGELOG.md", "docs/trust/readers.md"]


def read(name):
    with open(os.path.join(TOP, name), encoding="utf-8") as file:
        return file.read()


def names_of(*patterns):
    """The files of these patterns, but what a build left, by their names from the top."""
    found = [name for pattern in patterns for name in glob.glob(os.path.join(TOP, pattern), recursive=True)]
    return sorted(os.path.relpath(name, TOP) for name in found if "/out/" not in name and os.path.isfile(name))


PAGES = names_of("*.md", "docs/**/*.md", "checks/**/*.md", "clients/**/*.md", "cluster/**/*.md")


def page_named(name):
    return next(page for page in PAGES if os.path.basename(page) == name)


def without_blocks(text):
    """The page without its blocks of code, each line where it was."""
    text = re.sub(r"^```.*?^```$", lambda block: "\n" * block[0].count("\n"), text, flags=re.M | re.S)
    return re.sub(r"^    .*$", "", text, flags=re.M)


def spans_of(text):
    """What stands between back quotes, with the line of each."""
    for number, line in enumerate(without_blocks(text).split("\n"), 1):
        for span in re.findall(r"``(.+?)``|`([^`]+)`", line):
            yield number, span[0].strip() or span[1]


def headings_of(name):
    return re.findall(r"^#+ (.+)$", read(name), flags=re.M)


def anchor_of(heading):
    """The name under which a heading is linked."""
    return re.sub(r"[^\w\- ]", "", heading.lower()).replace(" ", "-")


def crates():
    """The crates of crates.txt, each with what its code names."""
    lines = [line.split("#")[0].partition(":") for line in read("crates.txt").split("\n")]
    return {head.split()[0]: tail.split() for head, colon, tail in lines if colon}


@functools.lru_cache(maxsize=None)
def every_file():
    """The names of all files and folders of the repository, from the top."""
    files = names_of("*", "crates/**/*", "checks/**/*", "clients/**/*", "cluster/**/*", "docs/**/*")
    folders = {"/".join(name.split("/")[:depth]) for name in files for depth in range(1, name.count("/") + 1)}
    return files + sorted(folders)


def is_there(path, page):
    """Whether a path that a page names is a file or a folder: from the top, from the page, or the end of another's. NAME and other words
    in capitals stand for any name; what a build leaves in out/ and a crate of the reader's own need not be there."""
    if re.search(r"(^|/)(out|mine)(/|$)", path):
        return True
    pattern = re.sub(r"(?<![a-zA-Z])[A-Z]{4,}(?![a-zA-Z.])|\*", "[^/]+", re.escape(path.rstrip("/")).replace(r"\*", "*"))
    near = re.escape(os.path.normpath(os.path.join(os.path.dirname(page), path)))
    wanted = re.compile(f"(.*/)?{pattern}|{near}")
    return any(wanted.fullmatch(name) for name in every_file())
