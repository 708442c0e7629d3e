"""A store file by hand, as docs/FORMATS.md says where a writer puts each record."""
import pathlib
import sys

sys.path.insert(0, str(pathlib.Path(__file__).resolve().parent.parent / "python" / "src"))
from dragoon.verify import HEAD, SEGMENT, big, header_of, payloads_of_store


def laid_out(fields, payloads, format=2, limit=67_108_864):
    """The file with these header fields and payloads, piece by piece. It ends before the first one that it is full for."""
    yield b"\xa7DRAGOON%d" % format + fields + bytes(33)
    place = HEAD
    for payload in payloads:
        record = b"\xa7" + big(len(payload), 4) + payload
        fits = format == 1 or place % SEGMENT + len(record) < SEGMENT
        unused = 0 if fits else -place % SEGMENT
        place += unused + len(record)
        if place >= limit:
            break
        yield bytes(unused) + record
    yield b"\0"


def laid(fields, payloads, format=2):
    return b"".join(laid_out(fields, payloads, format))


def in_format(content, format):
    """The same store in a format, as `migrate` writes it."""
    return laid(header_of(content).fields, payloads_of_store(content), format)
