#!/usr/bin/env python3
"""Prints the scheduler and the workloads of `measure` as one file of plain Rust: contracts and ghosts taken away, every type Copy.

Run from the top of the repository: mkdir -p target && python3 docs/plain-rust.py > target/plain.rs && rustc -C opt-level=3 --edition 2021 -o target/plain target/plain.rs
"""
import re
from pathlib import Path

CRATES = (
    "rules roots window waking ranges startup counting listing clauses soundness writing board lists charging eligibility turns searching preemption choice picking"
    " admission newjob taking settling leaving reporting asking layout making running scheduler"
).split()
HEAD = """#![allow(dead_code, unused)]
fn wrapping_add_u32(a: u32, b: u32) -> u32 {
    a.wrapping_add(b)
}
"""
MAIN = """fn main() {
    let name = std::env::args().nth(1).unwrap_or_default();
    let n = 100_000;
    let done = match name.as_str() {
        "sound" => loads::sound(n),
        "pick" => loads::pick(n / 4),
        "lane" => lanes::lane(n / 4),
        "crowd" => lanes::crowd(n / 4),
        "report" => loads::report(n / 4),
        "death" => deaths::death(n),
        "turn" => loads::turn(n),
        "job" => loads::job(n),
        "ask" => loads::ask(n),
        "board" => loads::board(n),
        _ => 0,
    };
    println!("{name} {done}");
}
"""


def without_contracts(text: str) -> str:
    """Leaves out each `requires { .. }` and `ensures .. { .. }`, whose braces are balanced."""
    out, at = [], 0
    for clause in re.finditer(r"(?m)^[ \t]+(?:requires|ensures)\b", text):
        if clause.start() < at:
            continue
        out.append(text[at:clause.start()])
        end, depth = text.index("{", clause.end()), 0
        while True:
            depth += {"{": 1, "}": -1}.get(text[end], 0)
            end += 1
            if depth == 0:
                break
        at = end + text[end:].startswith("\n")
    return "".join(out) + text[at:]


def inlined(file: Path) -> str:
    """The file with its modules in place of `mod name;`."""
    text = re.sub(r"(?m)^[ \t]*(ghost .*|#!?\[(derive|tactic)\(.*)\n", "", without_contracts(file.read_text()))
    text = re.sub(r"(?m)^(pub )?(struct|enum) ", r"#[derive(Clone, Copy, Debug, PartialEq, Eq)]\n\1\2 ", text)
    text = text.replace("fn fmt<W: fmt::Write>(&self, f: &mut fmt::Formatter<W>)", "fn fmt(&self, f: &mut fmt::Formatter)")
    return re.sub(r"(?m)^(pub )?mod (\w+);\n", lambda m: block(m[1] or "", m[2], inlined(file.parent / f"{m[2]}.rt")), text)


def block(pub: str, name: str, text: str) -> str:
    return f"{pub}mod {name} {{\n{text}}}\n"


def placed(crate: str, text: str) -> str:
    """Paths of a crate as paths of the one file. No module has the name of one of these crates."""
    if crate:
        text = re.sub(r"\bcrate::", f"crate::{crate}::", text)
    for other in CRATES:
        if other != crate:
            text = re.sub(rf"(?<![\w:]){other}::(?=[\w{{])", f"crate::{other}::", text)
    return text.replace("std::num::wrapping_add_u32", "crate::wrapping_add_u32")


parts = [block("pub ", c, placed(c, inlined(Path(f"crates/{c}/src/lib.rt")))) for c in CRATES]
parts += [block("", m, placed("", inlined(Path(f"crates/measure/src/{m}.rt")))) for m in ("deaths", "lanes", "loads", "scene")]
print(HEAD + "".join(parts) + MAIN, end="")
