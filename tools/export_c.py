#!/usr/bin/env python3
"""Writes crates/export_c/src/lib.rt from crates/export/src/lib.rt: each function with its comment, parameters and clauses, as C calls it, and a body that calls
`export`. At the top of the repository; `rt fmt` in crates/export_c lays the bodies out. `.ci/pages` holds the two to one another."""
import re

with open("crates/export/src/lib.rt", encoding="utf-8") as it:
    text = it.read()
with open("crates/export_c/src/lib.rt", encoding="utf-8") as it:
    head = it.read().split("#![tactic(auto)]\n", 1)[0]
uses = "".join(line + "\n" for line in text.split("\n") if line.startswith("ghost use "))
functions = []
for comment, signature, name, parameters in re.findall(r"((?://[^\n]*\n)*)(pub fn (\w+)\((.*?)\) -> \w+\n.*?)\n\{\n.*?\n\}\n", text, re.S):
    passed = ", ".join(it.split(":")[0].strip() for it in parameters.split(",") if it.strip())
    signature = signature.replace("pub fn", 'pub extern "C" fn', 1)
    functions.append(f"{comment}#[unsafe(no_mangle)]\n{signature}\n{{\n    export::{name}({passed})\n}}\n")
with open("crates/export_c/src/lib.rt", "w", encoding="utf-8") as it:
    it.write(f"{head}#![tactic(auto)]\n\n{uses}\n" + "\n".join(functions))
