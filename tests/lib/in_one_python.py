#!/usr/bin/env python3
"""Runs programs in Python one after the other in this process, as their command lines say, so that only the first one waits for Python and the
modules to start. A line on standard input is the words of one as a list in JSON, the program first; the line that comes back has its
status, and what it printed and said. Standard library only."""
import contextlib
import io
import json
import os
import runpy
import sys
import traceback

sys.dont_write_bytecode = True


def ran(words):
    """The status of a program, what it printed, and what it said on standard error."""
    folder = os.path.dirname(os.path.abspath(words[0]))
    if folder not in sys.path:
        sys.path.insert(0, folder)
    out, said, code = io.StringIO(), io.StringIO(), 0
    sys.argv = words
    with contextlib.redirect_stdout(out), contextlib.redirect_stderr(said):
        try:
            runpy.run_path(words[0], run_name="__main__")
        except SystemExit as end:
            code = end.code or 0
        except BaseException:  # pylint: disable=broad-except
            code = 1
            traceback.print_exc()
    return code, out.getvalue(), said.getvalue()


def main():
    replies, sys.stdout = sys.stdout, sys.stderr
    for line in sys.stdin:
        print(json.dumps(ran(json.loads(line))), file=replies, flush=True)


if __name__ == "__main__":
    main()
