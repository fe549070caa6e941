"""The picture of the crates, drawn from crates.txt: its headings are groups, and an arrow leads from each to those that it stands on."""
import html
import re

STYLE = re.compile(r"<style>.*?</style>", re.S)

WIDTH = 900
BETWEEN = 44
LINE = 18
LETTER = 7.3

LEGEND = [("b", "no files"), ("d", "files without Lisp"), ("g", "files and Lisp")]


def headings(text):
    """The groups of crates.txt in its order: for each heading the crates below it."""
    groups, crates = {}, None
    for line in text.split("\n"):
        if line.startswith("# "):
            crates = groups.setdefault(line[2:], [])
        elif ":" in line:
            crates.append(line.split(":")[0].split()[0])
    return groups


def is_of_tests(crate):
    return crate.endswith("_tests") or crate == "examples"


def stands_on(groups, below):
    """For each group the groups that its crates name, but for those that are reached by another one of these. Tests and examples do not count."""
    of = {crate: group for group, crates in groups.items() for crate in crates}
    named = {
        group: {of[name] for crate in crates if not is_of_tests(crate) for name in below[crate] if name in of} - {group}
        for group, crates in groups.items()
    }

    def reached(group):
        return set().union(*(({it} | reached(it)) for it in named[group]))

    return {group: {it for it in near if not any(it in reached(other) for other in near)} for group, near in named.items()}


def rows_of(groups, below):
    """The groups in rows from the top: each as near as can be to the lowest of those that stand on it."""
    near = stands_on(groups, below)

    def depth(group):
        return max((1 + depth(other) for other in groups if group in near[other]), default=0)

    rows = {}
    for group in groups:
        rows.setdefault(depth(group), []).append(group)
    return [rows[number] for number in sorted(rows)]


def kind(crates, below):
    """The colour of a group: what knows no files, files without Lisp, or both."""
    seen, todo = set(), [*crates]
    while todo:
        name = todo.pop()
        if name in below and name not in seen:
            seen.add(name)
            todo += below[name]
    if "disk_trait" not in seen:
        return "b"
    return "g" if "lisp_object" in seen else "d"


def wrapped(crates, width):
    """The names of crates in lines that fit a width."""
    lines = [""]
    for name in crates:
        if lines[-1] and LETTER * len(f"{lines[-1]}  {name}") > width - 24:
            lines.append("")
        lines[-1] = f"{lines[-1]}  {name}".strip()
    return lines


class Box:
    """A group on the page: where its frame is, its heading, and its crates in lines."""

    def __init__(self, group, crates, left, top, width):
        self.group, self.left, self.top, self.width = group, left, top, width
        self.lines = wrapped(crates, width)
        self.height = 34 + LINE * len(self.lines)

    def drawn(self, colour):
        yield f'<rect x="{self.left:.1f}" y="{self.top}" width="{self.width:.1f}" height="{self.height}" rx="5" class="{colour}"/>'
        yield f'<text x="{self.left + 12:.1f}" y="{self.top + 22}" class="h">{html.escape(self.group)}</text>'
        for at, line in enumerate(self.lines):
            yield f'<text x="{self.left + 12:.1f}" y="{self.top + 42 + LINE * at}" class="m" xml:space="preserve">{html.escape(line)}</text>'


def placed(groups, below):
    """The boxes of all groups by their names, and where the lowest of them ends."""
    boxes, top = {}, 46
    for row in rows_of(groups, below):
        width = (WIDTH - 40 - 16 * (len(row) - 1)) / len(row)
        for at, group in enumerate(row):
            boxes[group] = Box(group, groups[group], 20 + at * (width + 16), top, width)
        top += max(boxes[it].height for it in row) + BETWEEN
    return boxes, top - BETWEEN


def arrows(boxes, near):
    """A line from below each group to above each that it stands on, apart from one another where several meet."""

    def place(group):
        return boxes[group].left, boxes[group].top

    for group, others in near.items():
        lower = sorted(others, key=place)
        for at, other in enumerate(lower):
            upper = sorted((it for it in near if other in near[it]), key=place)
            start, end = boxes[group], boxes[other]
            x1 = start.left + start.width * (at + 1) / (len(lower) + 1)
            x2 = end.left + end.width * (upper.index(group) + 1) / (len(upper) + 1)
            y1, y2 = start.top + start.height, end.top - 6
            yield f'<path d="M{x1:.1f} {y1} C{x1:.1f} {y1 + 22} {x2:.1f} {y2 - 26} {x2:.1f} {y2}" class="l" marker-end="url(#a)"/>'


def drawn(groups, below, other):
    """The picture of these groups of crates, each crate with what its code names, in the style of another picture."""
    boxes, bottom = placed(groups, below)
    height = bottom + 46
    title = "The crates in groups: an arrow leads to what a group stands on"
    lines = [
        f'<svg xmlns="http://www.w3.org/2000/svg" viewBox="0 0 {WIDTH} {height}" width="{WIDTH}" height="{height}" role="img">',
        f"<title>{title}</title>",
        STYLE.search(other)[0],
        '<defs><marker id="a" markerWidth="9" markerHeight="8" refX="8" refY="4" orient="auto"><path d="M0,0 L9,4 L0,8 z" class="a"/></marker></defs>',
        f'<rect width="{WIDTH}" height="{height}" class="page"/>',
        f'<text x="20" y="28" class="h">{title}</text>',
    ]
    for group, box in boxes.items():
        lines += box.drawn(kind(groups[group], below))
    lines += arrows(boxes, stands_on(groups, below))
    for place, (colour, meaning) in enumerate(LEGEND):
        lines.append(f'<rect x="{20 + 200 * place}" y="{height - 30}" width="16" height="16" rx="3" class="{colour}"/>')
        lines.append(f'<text x="{44 + 200 * place}" y="{height - 17}" class="s">{meaning}</text>')
    return "\n".join(lines + ["</svg>", ""])
