#!/usr/bin/env python3
"""Runs every NAME.script of the given folders through the reference and compares with NAME.expected, byte for byte."""

import pathlib
import sys

import reference

passed = failed = 0
for folder in sys.argv[1:]:
    for script in sorted(pathlib.Path(folder).glob("*.script")):
        if reference.run(script.read_bytes()) == script.with_suffix(".expected").read_bytes():
            passed += 1
        else:
            failed += 1
            print("differs:", script)
print(f"{passed} passed, {failed} failed")
sys.exit(failed != 0)
