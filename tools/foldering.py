"""The folder of a run, written from FORMATS alone, for tools/folders, tools/hostile and tools/wrong_inputs."""
import hashlib
from pathlib import Path

ZEROS = "0" * 64


def named(texts: list[bytes], number: int = 0, first: int = 0, previous: str = ZEROS) -> list[tuple[str, bytes]]:
    """Return the names of segments with these texts, and the texts; the first of them has this number."""
    segments = []
    for text in texts:
        moves, events = text.count(b'"reply":{"fired":'), text.count(b"\n") - 1
        digest = hashlib.sha256(f"{previous} {number} {first} {moves} {events} {len(text)}\n".encode() + text).hexdigest()
        segments.append((f"{number:08}-{first}-{moves}-{events}-{previous}-{digest}.journal", text))
        number, first, previous = number + 1, first + moves, digest
    return segments


def header(events: int, value: int, capacity: int = 9) -> bytes:
    """Return the header of a journal with so many events that opens with a value at x."""
    return b'{"agents":1,"capacity":%d,"events":%d,"init":[[["x"],%d]],"version":2}\n' % (capacity, events, value)


def fire(value: int, number: int) -> bytes:
    """Return the event of a move that puts a value at x."""
    return b'{"agent":0,"call":{"fire":[["put",["x"],%d]],"reads":[]},"reply":{"fired":%d}}\n' % (value, number)


def run_texts(moves: list[int]) -> list[bytes]:
    """Return the texts of a legal run: an opening segment, and one for each of these numbers of moves."""
    texts, value = [header(0, 0)], 0
    for many in moves:
        texts.append(header(many, value) + b"".join(fire(value + it + 1, it + 1) for it in range(many)))
        value += many
    return texts


def write_run(folder: Path, segments: list[tuple[str, bytes]]) -> None:
    """Write the folder of a run with these segments."""
    folder.mkdir()
    for name, text in segments:
        (folder / name).write_bytes(text)
