#!/usr/bin/env python3
"""The crate `log` is named `load`, after its call, since Rattle has a library of the name log. At the top of the repository; a second run changes nothing."""
import glob
import os
import re
import subprocess

if os.path.isdir("crates/log"):
    subprocess.run(["git", "mv", "crates/log", "crates/load"], check=True)
turned = {
    "crates.txt": [(r"\blog\b", "load")],
    ".ci/errors": [(r"(?m)^log/", "load/")],
    ".ci/pages": [(r"\blog/Load\b", "load/Load")],
}
for path in glob.glob("crates/**/*", recursive=True):
    if path.endswith((".rt", ".antt", ".edit")) and "/out/" not in path:
        turned[path] = [(r"\bRattle([.·])log\b", r"Rattle\1load"), (r"\buse log::", "use load::"), (r"\blog::load\b", "load::load")]
for path in ["README.md", *glob.glob("docs/*.md"), *glob.glob("rust/**/*.rs", recursive=True), *glob.glob("rust/**/*.md", recursive=True)]:
    if path not in ("docs/01-scope.md", "docs/02-change-requests.md", "docs/PORT.md"):
        turned[path] = [(r"\bcrates/log/", "crates/load/"), (r"`log/(?=[A-Za-z_])", "`load/"), (r"`log::", "`load::")]
# where `log` stands for the crate
for path in ("docs/ARCHITECTURE.md", "docs/GATE.md", "docs/PROVED.md", "docs/DECISIONS.md", "docs/REQUESTS.md"):
    turned[path].append((r"`log`", "`load`"))
for path, pairs in turned.items():
    with open(path, encoding="utf-8") as it:
        was = text = it.read()
    for old, new in pairs:
        text = re.sub(old, new, text)
    if text != was:
        with open(path, "w", encoding="utf-8") as it:
            it.write(text)
