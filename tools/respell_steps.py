#!/usr/bin/env python3
"""Respells the steps that proof files cite: a name of Rust code keeps its underscores.

Run once at the top, after respell.py. In the files that answer a function's
goals it turns as-slice into as_slice, for each name of the code under src/.
"""
import pathlib
import re

IDENT = re.compile(r"\b[a-z][a-z0-9]*(?:_[a-z0-9]+)+\b")
WORD = re.compile(r"(?<![A-Za-z0-9_'-])[A-Za-z][A-Za-z0-9_'-]*")


def main():
    idents = set()
    for path in pathlib.Path("crates").glob("*/src/*.rt"):
        idents |= set(IDENT.findall(path.read_text()))
    dashed = sorted((i.replace("_", "-") for i in idents), key=len, reverse=True)
    parts = re.compile("(?:(?<=^)|(?<=-))(?:" + "|".join(map(re.escape, dashed)) + ")(?=$|-)")

    def one(m):
        return parts.sub(lambda k: k.group(0).replace("-", "_"), m.group(0))

    for path in sorted(pathlib.Path("crates").glob("*/proofs/*/**/*.antt")):
        old = path.read_text()
        new = WORD.sub(one, old)
        if new != old:
            path.write_text(new)


main()
