"""What a stop of the machine leaves of files: the writes and cuts behind a file's last sync may be lost, all of them or any part.

shim.c notes each write, cut and sync of a file, with the bytes that were there before it.
"""
import struct
from typing import NamedTuple

HEAD = struct.Struct('=6q')
SECTOR = 512


class Note(NamedTuple):
    """A write of the bytes `new` at `offset`, or a cut to `length` bytes; before it the file had `size` bytes, and there the bytes `old`."""
    is_cut: bool
    offset: int
    length: int
    size: int
    old: bytes
    new: bytes


def unsynced(noted):
    """The notes behind the last sync of each file, by its inode."""
    found, place = {}, 0
    while place + HEAD.size <= len(noted):
        kind, inode, offset, length, old_length, size = HEAD.unpack_from(noted, place)
        place += HEAD.size
        old = noted[place:place + old_length]
        place += old_length
        kind = chr(kind)
        if kind == 'S':
            found.pop(inode, None)
            continue
        new = b''
        if kind == 'W':
            new = noted[place:place + length]
            place += length
        found.setdefault(inode, []).append(Note(kind == 'T', offset, length, size, old, new))
    return found


def undone(content, notes):
    """What a file had before these writes and cuts."""
    content = bytearray(content)
    for note in reversed(notes):
        at = note.length if note.is_cut else note.offset
        content.extend(bytes(max(0, at + len(note.old) - len(content))))
        content[at:at + len(note.old)] = note.old
        del content[note.size:]
    return content


def put(content, note, begin, end):
    """Does this part of a write."""
    at = note.offset + begin
    content.extend(bytes(max(0, at - len(content))))
    content[at:at + end - begin] = note.new[begin:end]


def sectors(note):
    """The parts of a write that lie each in one sector."""
    begin = 0
    while begin < len(note.new):
        end = min(len(note.new), begin + SECTOR - (note.offset + begin) % SECTOR)
        yield begin, end
        begin = end


def left(content, notes, keeps, parts=lambda note: [(0, len(note.new))]):
    """What a file holds after a stop in which of the notes, or of the parts of each write, just those took place for which `keeps()` holds."""
    content = undone(content, notes)
    for note in notes:
        if note.is_cut:
            if keeps():
                content.extend(bytes(max(0, note.length - len(content))))
                del content[note.length:]
            continue
        for begin, end in parts(note):
            if keeps():
                put(content, note, begin, end)
    return bytes(content)


def ways(random, draws):
    """Ways in which a stop may lose what wasn't synced: all of it, and by chance some writes of it and some sectors of it."""
    yield lambda content, notes: left(content, notes, lambda: False)
    for _ in range(draws):
        yield lambda content, notes: left(content, notes, lambda: random.random() < 0.5)
        yield lambda content, notes: left(content, notes, lambda: random.random() < 0.5, sectors)
