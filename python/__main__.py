"""Runs a program of this folder:  python3 python NAME [WORDS ..]

NAME is a module, as for `python3 -m NAME`: `nrdb`, `dev.fuzz`, `tests.program.system`. Python then looks for modules in
this folder, and not in the one that it is called in.
"""

import sys

if sys.version_info < (3, 10):  # (any Python can read this file, Python 2.7 too)
    sys.stderr.write("Python 3.10 or later is needed\n")
    sys.exit(3)

import _signal as signal  # type: ignore  # (`signal` itself takes milliseconds to import)

if sys.argv[1:2] in (["nrdb"], ["netrev_go"]) and signal.getsignal(signal.SIGINT) is signal.default_int_handler:
    signal.signal(signal.SIGINT, signal.SIG_DFL)  # until the program begins, Ctrl-C only ends it

import runpy

if __name__ == "__main__":
    if len(sys.argv) < 2:
        sys.exit(__doc__)
    del sys.argv[0]
    runpy.run_module(sys.argv[0], run_name="__main__", alter_sys=True)
