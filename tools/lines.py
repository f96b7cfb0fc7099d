#!/usr/bin/env python3
"""docs/PROMISES.md shows lines of code as `FILE:LINE` | `CODE`: writes the number of the line where the code stands now; of several lines the one that is nearest to
where it stood, which it names. At the top of the repository."""
import re

page = "docs/PROMISES.md"
with open(page, encoding="utf-8") as it:
    lines = it.read().split("\n")
for at, line in enumerate(lines):
    shown = re.fullmatch(r"(\|.*\| `)([^`]+):([0-9]+)(` \| `)([^`]+)(` \|)", line)
    if not shown:
        continue
    with open(shown[2], encoding="utf-8") as it:
        found = [number for number, code in enumerate(it.read().split("\n"), 1) if code.lstrip(" ") == shown[5]]
    was = int(shown[3])
    if found:
        now = min(found, key=lambda number: abs(number - was))
        lines[at] = f"{shown[1]}{shown[2]}:{now}{shown[4]}{shown[5]}{shown[6]}"
    if len(found) != 1 and was not in found:
        print(f"{shown[2]}: '{shown[5]}' stands there {len(found)} times; line {was}, now {now if found else 'nowhere'}")
with open(page, "w", encoding="utf-8") as it:
    it.write("\n".join(lines))
