"""What /proc says of this process, under the names that Prometheus's own clients give it."""
from __future__ import annotations

import os
import pathlib
import re
from typing import List, Tuple

from .exposition import Family, Sample, Value

PROC = pathlib.Path("/proc")

FAMILIES = (
    Family("process_cpu_seconds_total", "counter", "Seconds of processors that this server's process took."),
    Family("process_start_time_seconds", "gauge", "When this server's process started, in seconds since 1970."),
    Family("process_resident_memory_bytes", "gauge", "Memory of this server's process that is resident."),
    Family("process_virtual_memory_bytes", "gauge", "Addresses that this server's process has taken."),
    Family("process_open_fds", "gauge", "File descriptors that are open."),
    Family("process_max_fds", "gauge", "The most file descriptors that may be open."),
)


def _found(pattern: str, path: pathlib.Path) -> int:
    found = re.search(pattern, path.read_text(encoding="ascii", errors="replace"), re.M)
    if not found:
        raise OSError(f"{path} has no {pattern}")
    return int(found[1])


def _values() -> Tuple[Value, ...]:
    """The values in the order of the families."""
    own = PROC / "self"
    # behind the process's name, which may have blanks and brackets: here begins the third field of proc(5)
    fields = (own / "stat").read_text(encoding="ascii", errors="replace").rpartition(")")[2].split()
    user, system, started, virtual, resident = (int(fields[place - 3]) for place in (14, 15, 22, 23, 24))
    ticks = os.sysconf("SC_CLK_TCK")
    return (
        (user + system) / ticks,
        _found(r"^btime (\d+)", PROC / "stat") + started / ticks,
        resident * os.sysconf("SC_PAGE_SIZE"),
        virtual,
        len(os.listdir(own / "fd")) - 1,  # one of them is open for this list
        _found(r"^Max open files +(\d+)", own / "limits"),
    )


def process() -> List[Tuple[Family, List[Sample]]]:
    """The families with their samples; none where there is no such /proc."""
    try:
        return [(family, [Sample({}, value)]) for family, value in zip(FAMILIES, _values())]
    except (OSError, IndexError, ValueError):
        return []
