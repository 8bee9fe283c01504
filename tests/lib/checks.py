"""What a script of checks says: a line for each check, and at the end 'N passed, M failed'; and ports for its nodes. Standard library only."""

import collections
import os
import random
import signal
import socket
import threading
import time

# Who runs the checks in the background may have Ctrl-C ignored, which each program that they start would take over.
signal.signal(signal.SIGINT, signal.default_int_handler)

passed, failed, skipped = 0, 0, 0
# Ports that were given here, and a name for each of the last ones, which no other process can have meanwhile.
PORTS, NAMES, PORTS_LOCK = set(), collections.deque(), threading.Lock()
# Below the ports that the system hands out by itself, so that no connection takes one; and how many of those names are kept.
RANGE, MOST_NAMES, CHANCE = (10_000, 32_000), 32, random.SystemRandom()
# checks that are made side by side say one after the other what came of them
REPORTING = threading.Lock()


def report(name, problems, told=""):
    """Says that a check passed, or what is wrong, and what it was told, if anything."""
    global passed, failed
    name = f"{name}: {told}" if told else name
    with REPORTING:
        if problems:
            failed += 1
            print(f"FAILED {name}", *[f"  {str(problem)[:400]}" for problem in problems[:5]], sep="\n", flush=True)
        else:
            passed += 1
            print(f"ok {name}", flush=True)


def skip(what, needed=True):
    """Says that a part was skipped, and why; that is a check that failed where NEED_ALL=1 asks for all of them, but for what isn't needed
    even then: a toolchain that tests/packages doesn't list."""
    global skipped
    if needed and os.environ.get("NEED_ALL") == "1":
        report("all that NEED_ALL=1 asks for", [what])
    else:
        skipped += 1
        print(f"skipped: {what}", flush=True)


def differ(pairs):
    """A problem for each (what, got, wanted) where the last two differ."""
    return [f"{what}: {got!r}, wanted {wanted!r}" for what, got, wanted in pairs if got != wanted]


def is_ours(port):
    """Whether nobody listens on a port, and no other process that asks here was just given it: a name outside of all folders says so, which goes
    with the process."""
    name = socket.socket(socket.AF_UNIX)
    try:
        name.bind(f"\0port {port} of a check")
        with socket.socket() as it:
            it.bind(("127.0.0.1", port))
    except OSError:
        name.close()
        return False
    NAMES.append(name)
    if len(NAMES) > MOST_NAMES:
        NAMES.popleft().close()
    return True


def free_port():
    """A port that nobody listens on, and that nobody here was given before; nor anybody in another check, which may run beside this one."""
    with PORTS_LOCK:
        while True:
            port = CHANCE.randrange(*RANGE)
            if port not in PORTS and is_ours(port):
                PORTS.add(port)
                return port


def guarded(check, *words):
    """Makes a check; what it raises is a failure of this check alone."""
    try:
        check(*words)
    except Exception as error:  # pylint: disable=broad-except
        trace = error.__traceback__
        while trace.tb_next:
            trace = trace.tb_next
        place = f"line {trace.tb_lineno} of {trace.tb_frame.f_code.co_filename}"
        report(check.__name__, [f"{type(error).__name__}: {error} ({place})"])


def timed(check, *words):
    """The same, and says how long it took."""
    began = time.monotonic()
    guarded(check, *words)
    print(f"{check.__name__}: {time.monotonic() - began:.1f} s", flush=True)


def is_built(program):
    """Whether the program is there; where it isn't, that is a check that failed."""
    if not program.exists():
        report("the program", [f"{program} is not built"])
    return program.exists()


def ended():
    """Says how many checks passed and failed, and gives the status."""
    if skipped:
        print(f"{skipped} skipped")
    print(f"{passed} passed, {failed} failed")
    return 1 if failed else 0
