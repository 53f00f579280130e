#!/usr/bin/env python3
"""Writes units of one megabyte into a folder: those that a careless lexer would read more than once."""
import os
import sys

SIZE = 1 << 20
SOURCE = 'fun f (x, y) = let val z = A.b.c + x * 12 in if z = y then f (z, y) else (* none *) "text\\n" end\n'


def fill(text):
    return (text * (SIZE // len(text) + 1))[:SIZE]


UNITS = {
    "source": fill(SOURCE),
    "tildes": fill("~"),
    "letters": fill("a"),
    "one_letter": fill("x "),
    "spaces": fill(" "),
    "brackets": fill("("),
    "hex_marks": fill("0x"),
    "exponents": fill("1E~"),
    "qualifiers": fill("A."),
    "open_comments": fill("(*"),
    "closed_comments": "(*" * (SIZE // 4) + "*)" * (SIZE // 4),
    "escapes": fill('"\\'),
    "string": '"' + fill("a")[: SIZE - 2] + '"',
    "gap": '"\\' + " " * (SIZE - 4) + '\\"',
    "gaps": '"' + fill("\\ \\")[: SIZE - 2] + '"',
    "digits": fill("7"),
}


def main():
    folder = sys.argv[1]
    os.makedirs(folder, exist_ok=True)
    for name, text in UNITS.items():
        with open(os.path.join(folder, name), "w") as file:
            file.write(text)


main()
