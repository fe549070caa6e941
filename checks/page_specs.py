"""What the pages say of the files of definitions: that they are there, and how many lines one has to read."""
import os
import re

from page_figures import OFF, lines_of
from pages import TOP, crates, names_of, read

WHERE = "docs/work/architecture.md"
TO_READ = "docs/trust/promise.md"
TRUSTED = "docs/trust/open.md"
THEOREM = "crates/prevalence_store/specs/Theorem.antt"

# The sections of the page, the column in which each names files, and the crate whose files have no crate beside them.
SECTIONS = (("Where definitions live", 2, ""), ("Where a rule of reading stands", 3, ""), ("From bytes to answers", 2, "prevalence_store"))


def rows(section):
    """The rows of the first table of a section, cell by cell."""
    text = read(WHERE).split(f"\n## {section}\n")[1].split("\n## ")[0]
    return [re.split(r"(?<!\\)\|", row) for row in re.findall(r"^\|.*\|$", text, flags=re.M)[2:]]


def files_named(cells, column, of_row):
    """The files that a cell names, each with the crates of which one has it. These are the crate whose name stands before the file, and
    those of the row, as `messages` and `sessions` are words too."""
    owners = of_row
    for crate, file in re.findall(r"(?<![`\w/])([a-z][a-z_0-9]*)(?![`\w/])|`((?:\w+/)?[A-Z]\w+)`", cells[column]):
        if crate in crates():
            owners = [crate, *of_row]
        elif file:
            yield file, owners


def definitions():
    """The files of definitions that the page names are in `specs/` of the crate beside them."""
    for section, column, crate in SECTIONS:
        for cells in rows(section):
            owners = [crate] if crate else re.findall(r"\w+", cells[1])
            for file, among in files_named(cells, column, owners):
                if not any(os.path.exists(os.path.join(TOP, "crates", owner, "specs", f"{file}.antt")) for owner in among):
                    yield f"{WHERE}: {' and '.join(among)} have no specs/{file}.antt"


def reached():
    """The files of definitions on which the theorem rests, by its imports."""
    found, waiting = set(), [THEOREM]
    while waiting:
        name = waiting.pop()
        if name not in found:
            found.add(name)
            paths = re.findall(r"\bRattle\.(\w+)\.(specs(?:\.\w+)+)", read(name))
            files = {f"crates/{crate}/{path.replace('.', '/')}.antt" for crate, path in paths}
            waiting += [file for file in files if os.path.exists(os.path.join(TOP, file))]
    return found


def counted():
    """The sizes that the pages give: the page, what stands around the number, and what it is."""
    specs, host = "crates/prevalence_store/specs", ["crates/disk_trait/src/host.rt", "crates/disk_trait/src/host/*.rt"]
    below, code = reached(), "".join(map(read, names_of(*host)))
    meaning = lines_of(*(f"{specs}/meaning/{name}.antt" for name in ("Acceptance", "Forgetting", "Files")))
    values = lines_of(*(f"crates/{crate}/specs/**/*.antt" for crate in ("evaluator", "lisp_operators", "value_functions")))
    lines = [line.strip() for name in below for line in read(name).split("\n")[:-1]]
    return (
        (TO_READ, r"disk_trait/specs/Disk\.antt` \| ([\d,]+)", lines_of("crates/disk_trait/specs/Disk.antt")),
        (TO_READ, r"gate_log/specs/Log\.antt` \| ([\d,]+)", lines_of("crates/gate_log/specs/Layout.antt", "crates/gate_log/specs/Log.antt")),
        (TO_READ, r"specs/meaning` \| ([\d,]+)", meaning),
        (TO_READ, r"specs/Theorem\.antt` \| ([\d,]+)", lines_of(THEOREM)),
        (TO_READ, r"sessions/specs` \| ([\d,]+)", lines_of(f"{specs}/calls/*.antt", "crates/sessions/specs/*.antt")),
        (TO_READ, r"lisp_reading/specs` \| ([\d,]+)", lines_of("crates/lisp_reading/specs/**/*.antt")),
        (TO_READ, r"value_functions` \| ([\d,]+)", values),
        (TO_READ, r"leads to ([\d,]+) files", len(below)),
        (TO_READ, r"in `specs/` of ([\d,]+) crates", len({name.split("/")[1] for name in below})),
        (TO_READ, r"They have about ([\d,]+) lines", len(lines)),
        (TO_READ, r"of which ([\d,]+) are neither", sum(not re.match(r"(--|(pub )?use\b|$)", line) for line in lines)),
        (TRUSTED, r"`HostDisk` has ([\d,]+) lines", lines_of(*host)),
        (TRUSTED, r"of disk_trait: ([\d,]+) of them", sum(not re.match(r"\s*(//|$)", line) for line in code.split("\n")[:-1])),
    )


def lines_to_read():
    """The sizes of what one has to read or to trust."""
    for page, pattern, size in counted():
        found = re.search(pattern, read(page))
        said = int(found.group(1).replace(",", "")) if found else 0
        if abs(said - size) > OFF * size:
            yield f"{page}: {said:,} for {pattern}, and there are {size:,}"
