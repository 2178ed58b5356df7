#!/usr/bin/env python3
"""Takes operators from the kit's Prelude, and not by way of definitions, as rt ci asks.

rt ci refuses a file that takes an operator such as + or ∷ from a crate of the repository, though Basics of definitions only passes the kit's on.
This moves each such name to the file's use line of Rattle.std.specs.Prelude (in a file that takes names of Rattle.std.proofs.Common, to that one).
Run it at the top of the repository, as often as needed: what is right already stays as it is.
"""
import os
import re

USE = re.compile(r"^(?P<head>[ \t]*(?:(?:pub|unfoldable|ghost)\s+)*use\s+)(?P<path>[\w.'«»]+)\.\{(?P<names>[^{}]*)\}(?P<end>;?)[ \t]*\n", re.M)
FROM = "Rattle.definitions.specs.Basics"
PRELUDE = "Rattle.std.specs.Prelude"
COMMON = "Rattle.std.proofs.Common"


def split(names):
    return [it.strip() for it in names.replace("\n", " ").split(",") if it.strip()]


def written(head, path, names, end):
    return f"{head}{path}.{{{', '.join(names)}}}{end}\n"


def turned(text):
    """The file's text with its operators taken from the kit."""
    uses = list(USE.finditer(text))
    wrong = [it for it in uses if it["path"] == FROM and any("◌" in name for name in split(it["names"]))]
    if not wrong:
        return text
    there = {name for it in uses if it["path"] != FROM for name in split(it["names"])}
    moved, keep = [], {}
    for it in wrong:
        names = split(it["names"])
        keep[it.start()] = [name for name in names if "◌" not in name]
        moved += [name for name in names if "◌" in name and name not in there and name not in moved]
    plain = wrong[0]["head"]
    homes = [it for it in uses if it["path"] in (COMMON, PRELUDE) and it["head"] == plain]
    homes.sort(key=lambda it: it["path"] != COMMON)
    home = homes[0].start() if homes else None
    out, at, is_new = [], 0, home is None and moved
    for it in uses:
        out.append(text[at:it.start()])
        if is_new and it.start() == wrong[0].start():
            out.append(written(plain, PRELUDE, moved, it["end"]))
        if it.start() == home and moved:
            out.append(written(it["head"], it["path"], split(it["names"]) + moved, it["end"]))
        elif it.start() in keep:
            if keep[it.start()]:
                out.append(written(it["head"], it["path"], keep[it.start()], it["end"]))
        else:
            out.append(it[0])
        at = it.end()
    return "".join(out) + text[at:]


def main():
    count = 0
    for folder, folders, names in os.walk("crates"):
        folders[:] = sorted(it for it in folders if it not in ("out", "data"))
        for name in sorted(names):
            if not name.endswith((".rt", ".antt")):
                continue
            path = f"{folder}/{name}"
            with open(path, encoding="utf-8", newline="") as file:
                text = file.read()
            new = turned(text)
            if new != text:
                with open(path, "w", encoding="utf-8", newline="") as file:
                    file.write(new)
                count += 1
    print(f"{count} files changed")


main()
