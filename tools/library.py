"""The static library for C, compiled without proof. The kit compiles programs alone for a run that is watched. So a copy of the crate gets a `main`
that calls each of its exports once; and what stands for these in the module gets their names for C."""
import os
import re
import shutil
from typing import List

CRATE = "pazturrok_c"
SLOT = """
impl EngineSlot {
    pub(crate) fn empty(alloc: Global) -> EngineSlot {
        EngineSlot { handle: Handle::closed(alloc), is_open: false }
    }
}
"""
# What each parameter of an export is handed, by its type: nothing is asked of it but that it compiles.
VALUES = {
    "Global": "alloc",
    "bool": "true",
    "&mut EngineSlot": "&mut slot",
    "&mut CallResult": "&mut done",
    "&mut HalfReport": "&mut told",
    "&mut u64": "&mut number",
    "&mut [u8]": "&mut out",
    "&[u8]": 'b""',
    "&[u64]": "&ends",
    "&[RequestHead]": "&heads",
    "&Setting": "&setting",
}
MAIN = """
use crate::exports::{{{names}}};
fn main(rt: HostRuntime) {{
    let alloc: std::alloc::Global = rt.alloc();
    let mut slot = EngineSlot::empty(alloc);
    let mut done = CallResult {{ number: 0, answer: 0, orders: 0 }};
    let mut told = HalfReport {{ generation: 0, records: 0, version: 0 }};
    let setting = Setting {{ limit: 1, seed_first: 1, seed_second: 2 }};
    let heads = [RequestHead {{ number: 0, end: 0, is_question: true }}; 1];
    let (mut number, mut out, ends) = (0u64, [0u8; 8], [0u64; 1]);
{calls}
}}
"""
EXPORT = re.compile(r'pub extern "C" fn (\w+)\(([^)]*)\)')


def call_of(name: str, parameters: str) -> str:
    types = [part.split(":")[1].strip() for part in parameters.split(",") if part.strip()]
    return f"    let _ = {name}({', '.join(VALUES.get(it, '0') for it in types)});"


def copy_with_main(crate: str, target: str) -> List[str]:
    """Makes a copy of the crate as a program that calls each export, and gives the names of these."""
    shutil.copytree(f"{crate}/src", f"{target}/src")
    os.symlink(f"{crate}/specs", f"{target}/specs")
    with open(f"{target}/src/exports.rt", encoding="utf-8") as file:
        exports = EXPORT.findall(file.read())
    names = [name for name, _ in exports]
    with open(f"{target}/src/slot.rt", "a", encoding="utf-8") as file:
        file.write(SLOT)
    os.rename(f"{target}/src/lib.rt", f"{target}/src/main.rt")
    with open(f"{target}/src/main.rt", "a", encoding="utf-8") as file:
        file.write(MAIN.format(names=", ".join(names), calls="\n".join(call_of(*it) for it in exports)))
    return names


def export(module: str, out: str, names: List[str]) -> List[str]:
    """Writes a module in which the exports have their names for C, and `main` is nobody's any more. Gives those that it has not."""
    inside, left = re.compile(f'@"{CRATE}::exports::({"|".join(names)})"'), set(names)
    with open(module, encoding="utf-8", errors="surrogateescape") as file, open(out, "w", encoding="utf-8", errors="surrogateescape") as to:
        for line in file:
            line = inside.sub(r"@\1", line)
            if line.startswith("define internal "):
                own = re.search(r"@(\w+)\(", line)
                if own and own[1] in left:
                    left.remove(own[1])
                    line = line.replace("define internal ", "define ", 1)
            elif line.startswith("define i32 @main("):
                line = line.replace("define i32", "define internal i32", 1)
            to.write(line)
    return sorted(left)
