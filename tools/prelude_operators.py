#!/usr/bin/env python3
"""Imports the Prelude's operators from the Prelude: `rt ci` refuses them under a name of the repository's own (Rattle.common.specs.Logic).

usage: prelude_operators.py CRATE_FOLDER.."""
import glob, re, sys

PRELUDE = open("/opt/rattle/rattle/std/specs/Prelude.antt").read()
SYMBOLS = {it for it in re.findall(r"[^\s{},]+", PRELUDE) if "◌" in it}
LINE = re.compile(r"(?m)^((?:ghost |pub |unfoldable )*use )Rattle\.common\.specs\.Logic\.(\{[^{}\n]*\}|[^\s{};]+)(;?)\n")


def turned(text):
    def line(found):
        use, names, end = found.groups()
        names = re.findall(r"[^\s{},]+", names)
        ours = [it for it in names if it not in SYMBOLS]
        theirs = [it for it in names if it in SYMBOLS]
        out = ""
        if theirs:
            out += f"{use}Rattle.std.specs.Prelude.{{{', '.join(theirs)}}}{end}\n"
        if ours:
            out += f"{use}Rattle.common.specs.Logic.{{{', '.join(ours)}}}{end}\n"
        return out

    text = LINE.sub(line, text)
    # two lines over the Prelude become one
    lines = re.findall(r"(?m)^use Rattle\.std\.specs\.Prelude\.\{([^{}\n]*)\}\n", text)
    if len(lines) > 1:
        names = list(dict.fromkeys(it for one in lines for it in re.findall(r"[^\s,]+", one)))
        first = [True]

        def one(found):
            if first[0]:
                first[0] = False
                return f"use Rattle.std.specs.Prelude.{{{', '.join(names)}}}\n"
            return ""

        text = re.sub(r"(?m)^use Rattle\.std\.specs\.Prelude\.\{[^{}\n]*\}\n", one, text)
    return text


for folder in sys.argv[1:]:
    for kind in ("src/**/*.rt", "specs/**/*.antt", "proofs/**/*.antt"):
        for file in glob.glob(f"{folder}/{kind}", recursive=True):
            old = open(file).read()
            new = turned(old)
            if new != old:
                open(file, "w").write(new)
