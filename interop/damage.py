"""Damaged files, from a seed: flipped bits, other bytes, other numbers, cuts, frames that change places, and frames and rows
that are gone.

Whatever the damage is, jellyp has to end with status 0 or 1, and with the line of a named fault. Two things more are held
against it:

- The text of all that stands before the damage is written, and the fault isn't before it.
- What it says is what the plain reader says (reading.py) of the rows that protobuf's library finds in the damaged file.
  Where both have a fault, it is the same one at the same place. Protobuf takes some things that jellyp refuses (a field
  that stands twice, for one): there jellyp's fault may come first, and its text is what stands before that fault.

The second is held against a strict reading, too.
"""
import contextlib
import os
import random

import jelly_pb2 as jelly
import making
import reading
from google.protobuf.message import DecodeError
from jelly_peer import parsed
from program import difference, fault_of

# Faults that are met while bytes are read: all, those within a frame, and those of them that protobuf doesn't have, or not
# in the same way.
WIRE = frozenset("Truncated BadVarint BadTag WrongWire Twice BadUtf8 TooDeep FrameTooLong".split())
WITHIN = WIRE - {"FrameTooLong"}
OWN = frozenset("BadVarint BadTag WrongWire Twice TooDeep".split())


class Refused(Exception):
    """Bytes that are no varint, or no field."""


def varint(data, at):
    """The number that begins there, and the place after it."""
    number = 0
    for count in range(10):
        if at + count == len(data):
            raise Refused
        byte = data[at + count]
        number += byte % 128 << 7 * count
        if byte < 128:
            if number >= 2**64:
                raise Refused
            return number, at + count + 1
    raise Refused


def field(data, at):
    """The number of a field, its wire type, where its content begins, and where it ends."""
    tag, at = varint(data, at)
    number, wire = tag >> 3, tag & 7
    if wire == 0:
        end = varint(data, at)[1]
    elif wire == 2:
        length, at = varint(data, at)
        end = at + length
    else:
        end = at + {1: 8, 5: 4}.get(wire, len(data) + 1)
    if end > len(data) or not 0 < number < 2**29:
        raise Refused
    return number, wire, at, end


def rows_of(body):
    """The rows of a frame, each as protobuf reads it, and where each ends; a set of faults where reading ends early."""
    at, rows, ends = 0, [], []
    try:
        while at < len(body):
            number, wire, begin, at = field(body, at)
            if (number == 1 or number == 15) and wire != 2:
                raise Refused
            if number == 1:
                rows.append(jelly.RdfStreamRow.FromString(body[begin:at]))
                ends.append(at)
    except (Refused, DecodeError):
        rows.append(WITHIN)
    return rows, ends


def frames_of(data):
    """The frames of a file for the plain reader, and the place in the file where each row ends, by its place."""
    at, frames, ends = 0, [], {}
    while at < len(data):
        try:
            length, at = varint(data, at)
        except Refused:
            frames.append(frozenset(("Truncated", "BadVarint")))
            break
        if length > 2**27 or length > len(data) - at:
            frames.append(frozenset(("FrameTooLong" if length > 2**27 else "Truncated",)))
            break
        rows, row_ends = rows_of(data[at:at + length])
        frames.append(rows)
        for number, end in enumerate(row_ends, 1):
            ends[len(frames), number] = at + end
        at += length
        ends[len(frames) + 1, 0] = at
    return frames, ends


# What damages a file. Each answers the damaged one, and the first byte that may be another one than before.

def flip(made, frames):
    data = bytearray(making.file_bytes(frames))
    first = len(data)
    for _ in range(made.choice((1, 1, 1, 2, 5))):
        bit = made.randrange(8 * len(data))
        data[bit // 8] ^= 1 << bit % 8
        first = min(first, bit // 8)
    return bytes(data), first


def overwrite(made, frames):
    data = bytearray(making.file_bytes(frames))
    first = made.randrange(len(data))
    for at in range(first, min(len(data), first + made.choice((1, 2, 10)))):
        data[at] = made.choice((0, 1, 127, 128, 255, made.randrange(256)))
    return bytes(data), first


def cut(made, frames):
    data = making.file_bytes(frames)
    at = made.randrange(len(data))
    return data[:at], at


def swap(made, frames):
    if len(frames) < 2:
        return flip(made, frames)
    first, second = sorted(made.sample(range(len(frames)), 2))
    swapped = list(frames)
    swapped[first], swapped[second] = frames[second], frames[first]
    return making.file_bytes(swapped), len(making.file_bytes(frames[:first]))


def drop(made, frames):
    if len(frames) < 2:
        return cut(made, frames)
    at = made.randrange(len(frames))
    return making.file_bytes(frames[:at] + frames[at + 1:]), len(making.file_bytes(frames[:at]))


def changed(made, frames, change):
    """The file with a change in the rows of one frame."""
    at = made.choice([at for at, frame in enumerate(frames) if frame.rows])
    frame = jelly.RdfStreamFrame()
    frame.CopyFrom(frames[at])
    change(frame.rows)
    return making.file_bytes(frames[:at] + [frame] + frames[at + 1:]), len(making.file_bytes(frames[:at]))


def lose(made, frames):
    """A row less."""
    return changed(made, frames, lambda rows: rows.pop(made.randrange(len(rows))))


def numbers_of(message):
    """The numbers that are set in a message and in those within it: each message, and the field's name."""
    for field, value in message.ListFields():
        if field.type in (field.TYPE_UINT32, field.TYPE_ENUM):
            yield message, field.name
        elif field.type == field.TYPE_MESSAGE:
            yield from numbers_of(value)


def renumber(made, frames):
    """Another number in a row, if it has one."""
    def change(rows):
        numbers = list(numbers_of(made.choice(rows)))
        if numbers:
            message, name = made.choice(numbers)
            setattr(message, name, made.choice((0, 1, 2, 3, getattr(message, name) + 1, 65536, 65537, 2**31 - 1)))
    return changed(made, frames, change)


DAMAGES = (flip, flip, overwrite, cut, swap, drop, lose, renumber, renumber)


def wrong_beside_reader(data, strict, status, out, found):
    """What jellyp says against the plain reader."""
    items, fault = reading.read(frames_of(data)[0], strict)
    if status == 0:
        return difference(out, reading.text(items)) if fault is None else "no fault, and the reader has %s" % (fault,)
    place, name = found
    own = name in OWN and (fault is None or place <= fault[0])
    if not own and (fault is None or place != fault[0] or name not in fault[1]):
        return "%s, and the reader has %s" % (found, fault or "no fault")
    return difference(out, reading.text([item for item in items if item[0] < place]))


def wrong_before_damage(frames, first, is_cut, out, found):
    """What stands before the damage against the undamaged file."""
    whole = making.file_bytes(frames)
    items, _ = reading.read(parsed(frames))
    ends = frames_of(whole)[1]
    # Of a frame that is cut no row is read.
    safe = [place for place, end in ends.items() if end <= first and (place[1] == 0 or not is_cut)]
    last = max(safe, default=(0, 0))
    if found and found[0] <= last and found[0] != (last[0], 0):
        return "%s, which is before the damage, which comes after row %s" % (found, last)
    before = reading.text([item for item in items if item[0] <= last])
    return "" if out.startswith(before) else "it begins not with the text before the damage: " + difference(out, before)


@contextlib.contextmanager
def quiet():
    """Protobuf's library writes a line to standard error about each text that it refuses."""
    kept, null = os.dup(2), os.open(os.devnull, os.O_WRONLY)
    os.dup2(null, 2)
    try:
        yield
    finally:
        os.dup2(kept, 2)
        os.close(kept)
        os.close(null)


def check_validate(program, tally, what, damaged, ended, options):
    """Status and line of `validate` are those with which `nquads` ended."""
    said = program.run("validate", options=options)
    right = (said[0], said[2]) == ended and (said[1] == b"") == (said[0] == 1)
    tally.check("" if right else "%r beside %r of nquads" % (said, ended), "validate of " + what, damaged)


def check(program, commands, tally, what, frames, damaged, first, is_cut):
    status, out, errors = program.run("nquads", damaged)
    found = fault_of(errors)
    if (status, errors) != (0, b"") and (status != 1 or found is None):
        tally.check("status %d, %r" % (status, errors), what, damaged)
        return
    wrong = wrong_beside_reader(damaged, False, status, out, found)
    tally.check(wrong or wrong_before_damage(frames, first, is_cut, out, found), what, damaged)
    if "validate" in commands:
        check_validate(program, tally, what, damaged, (status, errors), [])
    if "inspect" in commands:
        said = program.run("inspect")
        right = said[2] == b"" if said[0] == 0 else said[0] == 1 and said[1] == b"" and fault_of(said[2]) is not None
        # It meets the faults of reading alone, and those of the first row.
        if status == 0 or found[1] in WIRE or found[1] == "EmptyRow":
            right = right and (said[0], said[2]) == (status, errors)
        tally.check("" if right else "%r beside %d, %r of nquads" % (said, status, errors), "inspect of " + what, damaged)


def check_strictly(program, commands, tally, what, damaged):
    options = ["--strict=1"]
    status, out, errors = program.run("nquads", damaged, options)
    found = fault_of(errors)
    if (status, errors) != (0, b"") and (status != 1 or found is None):
        tally.check("status %d, %r" % (status, errors), "strictly, " + what, damaged)
        return
    tally.check(wrong_beside_reader(damaged, True, status, out, found), "strictly, " + what, damaged)
    if "validate" in commands:
        check_validate(program, tally, "strictly, " + what, damaged, (status, errors), options)


def run(program, commands, tally, seed, count):
    print("%d damaged files, from seed %s: %s" % (count, seed, ", ".join(commands)))
    with quiet():
        for number in range(count):
            made = random.Random("%s, damaged file %d" % (seed, number))
            frames = making.make(made, 1 + number % 3, rows=40)
            damage = made.choice(DAMAGES)
            damaged, first = damage(made, frames)
            what = "damaged file %d of seed %s (%s)" % (number, seed, damage.__name__)
            is_cut = damage in (cut, drop) and making.file_bytes(frames).startswith(damaged)
            check(program, commands, tally, what, frames, damaged, first, is_cut)
            check_strictly(program, commands, tally, what, damaged)


def whole_and_damaged(seed, what, count):
    """So many whole files and a damaged one after each, from a seed and a word for what they are for; each with its name."""
    for number in range(count):
        made = random.Random("%s, %s %d" % (seed, what, number))
        frames = making.make(made, 1 + number % 3)
        yield "file %d of seed %s" % (number, seed), making.file_bytes(frames)
        change = made.choice(DAMAGES)
        yield "damaged file %d of seed %s (%s)" % (number, seed, change.__name__), change(made, frames)[0]
