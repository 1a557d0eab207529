#!/usr/bin/env python3
# Runs the gate, `rt ci`, with the words that are given, passes on what it prints, and then says where its time went: when
# each crate and its tests were proved, when the edits of each crate were begun, and when tests and programs had run. All in
# seconds after the start, since the gate works on several things at one time. What it prints of single edits comes at its
# end, so that their own times are not known. It ends with the gate's status. Usage: bench/gate.py [WORD..]
import re
import subprocess
import sys
import time
from pathlib import Path

top = Path(__file__).resolve().parent.parent
start = time.monotonic()
proved, edits, ran = [], [], []
gate = subprocess.Popen(["rt", "ci", *sys.argv[1:]], cwd=top, stdout=subprocess.PIPE, stderr=subprocess.STDOUT, text=True)
for line in gate.stdout:
    now = time.monotonic() - start
    print(line, end="", flush=True)
    if found := re.match(r"rt: (\w+)(: its tests are)? proved$", line):
        proved.append((now, found[1] + (", its tests" if found[2] else "")))
    elif found := re.match(r"rt: (\w+): trying its must-fail edits \((\d+)\)", line):
        edits.append((now, f"{found[2]:>4} {found[1]}"))
    elif found := re.match(r"rt: (\w+) ran|rt: (\w+): its tests passed", line):
        ran.append((now, found[1] or found[2] + ", its tests"))
status = gate.wait()

print(f"\nthe gate took {time.monotonic() - start:.0f} seconds")
print("\nproved after")
for now, name in proved:
    print(f"{now:8.0f} {name}")
print("\nedits begun after, how many")
for now, name in edits:
    print(f"{now:8.0f} {name}")
print("\nran after")
for now, name in ran:
    print(f"{now:8.0f} {name}")
sys.exit(status)
