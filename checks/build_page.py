"""The table of docs/work/build.md, of what a run of the gate measured."""
import os
import time

PAGE = os.path.join(os.path.dirname(os.path.dirname(os.path.abspath(__file__))), "docs", "work", "build.md")
BEGIN, END = "<!-- from here on by checks/gate --measure -->", "<!-- up to here -->"


def chain_of(tasks, clock):
    """Returns the crates of the chain: the one whose proof ended last, the one for which it waited last, and so on."""
    proofs = [it for it in clock if it[1] == "proof"]
    chain = []
    while proofs:
        chain.append(max(proofs, key=lambda it: clock[it][1]))
        proofs = tasks[chain[-1]].waits
    return [crate for crate, *_ in reversed(chain)]


def rows_of(lanes):
    """Returns a row for each crate, in the order in which they were proved."""
    chain, usage = chain_of(lanes.tasks, lanes.clock), lanes.usage
    for (crate, kind, *_), (begun, ended) in sorted(lanes.clock.items(), key=lambda it: it[1][1]):
        if kind == "proof":
            minutes = [usage.minutes(crate, it) for it in ("proof", "tests", "edits")]
            cells = [f"{it:.1f}" if it else "" for it in minutes]
            name = f"**`{crate}`**" if crate in chain else f"`{crate}`"
            yield f"| {name} | {' | '.join(cells)} | {begun:.1f} | {ended:.1f} |"


def table_of(lanes, commit, clock):
    usage = lanes.usage
    sums = [usage.minutes_of(it) for it in ("proof", "tests", "edits")]
    return "\n".join([
        f"Measured on {time.strftime('%Y-%m-%d')} by the gate of commit {commit[:12]}, on {lanes.processors} "
        f"processors: {sum(sums) + usage.minutes_of('library'):.0f} minutes of a processor, {clock:.0f} of the clock. "
        "The crates of the chain are in bold: each of them waited for the one before it.",
        "",
        "| Crate | Minutes of a processor | for its tests | for its wrong bodies | Its proof began after | and ended |",
        "|---|---|---|---|---|---|",
        *rows_of(lanes),
        f"| all | {sums[0]:.1f} | {sums[1]:.1f} | {sums[2]:.1f} | 0.0 | {clock:.1f} |",
    ])


def write(lanes, commit, clock, page=PAGE):
    """Puts the table of this run into the page, where the one of the run before it stands."""
    with open(page, encoding="utf-8") as it:
        before, rest = it.read().split(BEGIN, 1)
    after = rest.split(END, 1)[1]
    with open(f"{page}.new", "w", encoding="utf-8") as it:
        it.write(f"{before}{BEGIN}\n\n{table_of(lanes, commit, clock)}\n\n{END}{after}")
    os.replace(f"{page}.new", page)
