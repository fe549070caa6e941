"""What the pages and the heads of the crates say of the crates."""
import os
import re

import crates_picture
from pages import TOP, crates, names_of, page_named, read

PICTURE = "docs/pictures/crates.svg"

def drawn():
    return crates_picture.drawn(crates_picture.headings(read("crates.txt")), crates(), read("docs/pictures/form.svg"))


def table_of_crates():
    """The page on the crates names each of them."""
    page = page_named("crates.md")
    rows = re.findall(r"^\| ([a-z0-9_]+) \|", read(page), flags=re.M)
    text = read(page)
    for crate in crates():
        if crate.endswith("_tests"):
            if f"`{crate}`" not in text:
                yield f"{page} does not name {crate}"
        elif rows.count(crate) != 1:
            yield f"{page} has {rows.count(crate)} rows for {crate}"
    for name in rows:
        if "_" in name and name not in crates():
            yield f"{page} has a row for {name}, which is no crate"


def picture_of_crates():
    if read(PICTURE) != drawn():
        yield f"{PICTURE} is not the picture of crates.txt: checks/docs --write draws it"


def dependencies():
    """What crates.txt takes from the kit is on the page of what is trusted."""
    page = page_named("open.md")
    trusted = re.findall(r"`(\w+)`", read(page).split("\n## ")[1])
    taken = {name for names in crates().values() for name in names} - set(crates())
    for name in sorted(taken - set(trusted)):
        yield f"{page}: the crate {name} of the kit, which crates.txt takes, is not among what is trusted"


def cited():
    """Each crate with the files of its proofs that other crates cite."""
    files = set()
    for name in names_of("crates/*/src/**/*.rt", "crates/*/specs/**/*.antt", "crates/*/proofs/**/*.antt"):
        for crate, module in re.findall(r"\bRattle\.([a-z0-9_]+)\.(proofs(?:\.\w+)+)", read(name)):
            file = f"{module.replace('.', '/')}.antt"
            if crate != name.split("/")[1] and os.path.exists(os.path.join(TOP, "crates", crate, file)):
                files.add((crate, file))
    return sorted(files)


def heads():
    """The head of a crate names each file of proofs that other crates cite, and each of its modules."""
    for crate, file in cited():
        root = f"crates/{crate}/src/lib.rt"
        module = os.path.basename(file).removesuffix(".antt")
        if not re.search(rf"^//!.*(`{module}`|(?<![\w/]){re.escape(file)})", read(root), flags=re.M):
            yield f"{root} does not name {file}, which other crates cite"
    for root in names_of("crates/*/src/lib.rt", "crates/*/src/main.rt"):
        text = read(root)
        head = "\n".join(re.findall(r"^//!.*$", text, flags=re.M))
        lacking = [name for name in re.findall(r"^(?:pub )?mod (\w+);", text, flags=re.M) if not re.search(rf"\b{name}\b", head)]
        if lacking:
            yield f"{root} does not name in its head: {', '.join(lacking)}"
