"""The rates that pages and pictures give are those of docs/run/figures.tsv, and the sizes of the project are as counted."""
import re

from pages import names_of, read

FIGURES = "docs/run/figures.tsv"
PICTURE = "docs/pictures/rates.svg"


def rows():
    """What was done, who did it, how many forms, and in how many seconds."""
    for line in read(FIGURES).split("\n"):
        if line:
            what, who, count, seconds = line.split("\t")
            yield what, who, int(count), float(seconds)


def in_three_digits(rate):
    """The rate as a page gives it: 7,760 or 266,000."""
    unit = 10 ** max(0, len(str(int(rate))) - 3)
    return f"{round(rate / unit) * unit:,}"


def tables_of(text, head):
    """The rows below the heads of tables that begin so."""
    return re.findall(rf"^{re.escape(head)}.*\n\|[-|]+\n((?:\|.*\n)+)", text, flags=re.M)


def wrong_rates(name, text):
    """Numbers from 1,000 on that are neither a rate nor a count of the figures."""
    known = {text for _, _, count, seconds in rows() for text in (in_three_digits(count / seconds), f"{count / seconds:,.0f}", f"{count:,}")}
    for number in re.findall(r"\b\d{1,3}(?:,\d{3})+\b", text):
        if number not in known:
            yield f"{name}: {number} is no rate of {FIGURES}"


def figures():
    """The rates of README, of the questions, of the table of the page on speed, and of the picture."""
    page = "docs/run/speed.md"
    for table in tables_of(read(page), "| What | A second |"):
        yield from wrong_rates(page, table)
    for page in ("README.md", "docs/faq.md"):
        for line in read(page).split("\n"):
            if " a second" in line:
                yield from wrong_rates(page, line)
    drawn = set(re.findall(r">\s*(\d+)</tspan>", read(PICTURE)))
    for what, who, count, seconds in rows():
        if what != "open" and f"{count / seconds:.0f}" not in drawn:
            yield f"{PICTURE}: {what}, {who} is {count / seconds:.0f}: checks/speed/plot draws it"


STATUS = "docs/trust/status.md"

# A size that a page gives may be off by so much: it is round, and each change moves it.
OFF = 0.05


def lines_of(*patterns):
    """How many lines these files have."""
    return sum(read(name).count("\n") for name in names_of(*patterns))


def sizes():
    """The sizes that the page of what there is gives. How many wrong bodies the gate tries is exact."""
    tried = len(names_of("crates/*/must-fail/*.edit"))
    counted = {
        r"([\d,]+) lines of code": lines_of("crates/*/src/**/*.rt"),
        r"([\d,]+) of them tests and examples": lines_of("crates/*_tests/src/**/*.rt", "crates/examples/src/**/*.rt"),
        r"([\d,]+) lines of definitions": lines_of("crates/*/specs/**/*.antt"),
        r"([\d,]+) lines of proofs": lines_of("crates/*/proofs/**/*.antt"),
        r"([\d,]+) wrong bodies": tried + len(names_of("crates/*/wrong-bodies/*.edit")),
        r"of which the gate tries ([\d,]+)": tried,
        r"([\d,]+) lines of C": lines_of("clients/c/*.c"),
        r"([\d,]+) of headers": lines_of("clients/c/*.h"),
        r"([\d,]+) lines of Python": lines_of("cluster/**/*.py"),
    }
    text = read(STATUS)
    for pattern, size in counted.items():
        found = re.search(pattern, text)
        said = int(found.group(1).replace(",", "")) if found else 0
        if abs(said - size) > (0 if size == tried else OFF * size):
            yield f"{STATUS}: {said:,} for {pattern}, and there are {size:,}"
