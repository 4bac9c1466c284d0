#!/usr/bin/env python3
"""Refuses each allocation in turn of the built program (sweep.py) and of calls that it does not make (calls.py).

    tools/refused_memory/run.py [--unproved] [PROGRAM [CALLS]]

PROGRAM is the proved program, in crates/lanthovur/out if none is named; CALLS is that of calls.txt, built first if none is.
With --unproved both are built without proofs: `./lanthovur --unproved` keeps the one, and the other takes two minutes. Each case says how many of its allocations were refused. The last line is 'N runs ended wrongly, S seconds'.
"""
import sys
import time

sys.dont_write_bytecode = True
import calls
import sweep

if __name__ == "__main__":
    began = time.monotonic()
    is_unproved = "--unproved" in sys.argv[1:]
    named = [word for word in sys.argv[1:] if word != "--unproved"]
    failed = sweep.main(named[:1], is_unproved) + calls.main(named[1:], is_unproved)
    print(f"{failed} runs ended wrongly, {time.monotonic() - began:.0f} seconds")
    sys.exit(failed != 0)
