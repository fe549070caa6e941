"""The sessions that pages show, as files of checks/sessions have them."""
import os
import re

TOP = os.path.dirname(os.path.dirname(os.path.abspath(__file__)))


def blocks_of(text):
    """The blocks of a page between fences."""
    return re.findall(r"^```\w*\n(.*?)^```$", text, flags=re.M | re.S)


def cells_of(line):
    """The cells of a row of a table."""
    return [cell.replace("\0", "|").strip() for cell in line.replace(r"\|", "\0").strip().strip("|").split("|")]


def code_of(cell):
    """What stands between back quotes in a cell."""
    return [double or single for double, single in re.findall(r"`` ?(.+?) ?``|`([^`]+)`", cell)]


def lines_of(mark, texts):
    return "".join(f"{mark}{text.replace('%', '%25')}\n" for text in texts)


def wanted_of(text):
    """Lines that are wanted, as they stand in a file of checks/sessions."""
    return "".join(lines_of("> " if line[:1] in "#!@$<>=" else "", [line]) for line in text)


def scripts_of_block(block):
    """The sessions of a block between fences. One that is killed, checks/campaign has."""
    for first, rest in re.findall(r"^\$ (.*)\n((?:(?!\$ ).*\n)*)", block, flags=re.M):
        here = re.fullmatch(r"\./pazturrok run \S+(.*?) <<'END'", first)
        fed = re.fullmatch(r"\./pazturrok run \S+(.*?) < (lisp/\S+)", first)
        look = re.fullmatch(r"\./pazturrok (show|info|log|verify) \S+(.*?)( \| head -\d+)?", first)
        echo = re.fullmatch(r"echo (['\"])(.*)\1 \| \./pazturrok run \S+(.*)", first)
        if here and "kill" not in block:
            forms, _, answers = rest.partition("END\n")
            yield f"$ run DIR{here[1]}\n" + lines_of("< ", forms.split("\n")[:-1]) + "0\n" + wanted_of(answers.split("\n")[:-1])
        elif fed:
            with open(os.path.join(TOP, fed[2]), encoding="ascii") as file:
                forms = file.read()
            yield f"$ run DIR{fed[1]}\n" + lines_of("< ", forms.split("\n")[:-1]) + "0\n" + wanted_of(rest.split("\n")[:-1])
        elif look:
            told = rest.split("\n")[:-1]
            end = lines_of(">^ ", [told.pop()]) if look[3] else ""
            yield f"$ {look[1]} DIR{look[2]}\n0\n".replace("'", "") + wanted_of(told) + end
        elif echo and "kill" not in block:
            yield f"$ run DIR{echo[3]}\n" + lines_of("< ", [echo[2]]) + "0\n" + wanted_of(rest.split("\n")[:-1])


def script_of_table(table):
    """The session of a table of forms and answers, or the sessions of one of texts that are refused."""
    head, _, *rows = [cells_of(line) for line in table.split("\n")[:-1]]
    if head[:2] == ["Form", "Answer"]:
        forms = [form for row in rows for form in code_of(row[0])]
        yield "$ run DIR\n" + lines_of("< ", forms) + "0\n" + wanted_of([code_of(row[1])[0] for row in rows])
    elif head[:2] == ["Text", "Refused as"]:
        for row in rows:
            yield "$ run DIR\n" + lines_of("< ", code_of(row[0])) + "1\n" + lines_of(">^ ", [f"! {code_of(row[1])[0]}"])


def examples(pages):
    """The sessions that pages show, as a file of checks/sessions: of each page its name and its text."""
    text = "# The sessions that the pages show. checks/docs --write takes them from there: to change one, change the page.\n"
    for page, content in pages:
        for section in re.split(r"^##+ ", content, flags=re.M):
            heading = section.split("\n")[0].lstrip("# ")
            blocks = [script for block in blocks_of(section) for script in scripts_of_block(block)]
            tables = [list(script_of_table(table)) for table in re.findall(r"^(?:\|.*\n)+", section, flags=re.M)]
            for number, scripts in enumerate([runs for runs in [blocks, *tables] if runs], 1):
                text += f"\n== {page}: {heading}, {number}\n" + "".join(scripts)
    return text
