"""A file of `hkrep save`, as docs/FORMATS.md has it: read and judged with the standard library alone, and made."""
import hashlib

SUM, HEAD = b"\2\x7f", bytes.fromhex("00000024027f0001")


def frames_of(data):
    """The frames of a file, whole ones, one behind the other; ValueError where they aren't that."""
    found, at = [], 0
    while at < len(data):
        end = at + 4 + int.from_bytes(data[at:at + 4], "big")
        if len(data) - at < 6 or end > len(data):
            raise ValueError(f"byte {at}: {len(data) - at} bytes are no frame")
        found.append(data[at:end])
        at = end
    return found


def summed(*frames):
    """The same frames, and the one with their checksum."""
    data = b"".join(frames)
    return data + HEAD + hashlib.sha256(data).digest()


def what_is_wrong(data):
    """Why a file isn't one that `save` wrote: frames that end with that of their checksum; None where it is."""
    try:
        frames = frames_of(data)
    except ValueError as error:
        return str(error)
    if not frames or frames[-1][4:6] != SUM:
        return "it doesn't end with a checksum"
    if any(frame[4:6] == SUM for frame in frames[:-1]):
        return "it has more than one checksum"
    return None if data == summed(*frames[:-1]) else "its checksum is another"
