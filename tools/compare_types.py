#!/usr/bin/env python3
"""Asks C compilers about the worked rows of operators:

    tools/compare_types.py

Each expression of the rows HaveTypes and LackTypes of crates/ck_prog/proofs/WorkedOperators.antt is put after the rows'
declarations, and gcc and clang (-std=c99 -pedantic-errors) have to accept it, or refuse it. It prints each expression on
which a compiler differs, and how many agree. It needs gcc or clang, and is no part of the gate.
"""
import os
import re
import shutil
import subprocess
import sys

ROWS = "crates/ck_prog/proofs/WorkedOperators.antt"
FLAGS = ["-std=c99", "-pedantic-errors", "-fsyntax-only", "-funsigned-char", "-x", "c", "-"]
STRING = re.compile(r'"((?:[^"\\]|\\.)*)"')


def strings(text):
    return [s.replace('\\"', '"').replace("\\\\", "\\") for s in STRING.findall(text)]


def accepts(compiler, text):
    run = subprocess.run([compiler] + FLAGS, input=text, capture_output=True, text=True)
    return run.returncode == 0


def main():
    top = os.path.dirname(os.path.dirname(os.path.abspath(__file__)))
    with open(os.path.join(top, ROWS), encoding="utf-8") as file:
        rows = file.read()
    declarations = " ".join(strings(re.search(r"\nfile =\n(.*?)\n\n", rows, re.S).group(1)))
    compilers = [c for c in ("gcc", "clang") if shutil.which(c)]
    if not compilers:
        print("compare_types.py: skipped, neither gcc nor clang is installed")
        return 0
    agree = differ = 0
    pattern = r"^(\w+) : (HaveTypes|LackTypes) file \((.*?)\)\n\1 = refl"
    for name, relation, body in re.findall(pattern, rows, re.S | re.M):
        for expression in strings(body):
            text = "%s\nvoid row(void) { %s; }\n" % (declarations, expression)
            for compiler in compilers:
                if accepts(compiler, text) == (relation == "HaveTypes"):
                    agree += 1
                else:
                    differ += 1
                    print("%s: %s differs on %s" % (name, compiler, expression))
    print("%d agree, %d differ (%s)" % (agree, differ, ", ".join(compilers)))
    return 1 if differ or not agree else 0


sys.exit(main())
