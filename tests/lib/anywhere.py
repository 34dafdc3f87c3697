"""Copies of payloads at any byte of a disk, and frames over frames."""
from lib.disks import (DIGEST, HEAD, MAGIC, ROUND_PAYLOAD, ROUND_SEALED, SEALED_MAGIC, be, frame, head, sealed_frame)
from reference.shardscrub import candidates, claims_in, scrub


# Frames over frames

def overlapping(c, name, room, total):
    """Frames that end with this room, as they have one UUID, and begin in each other. Their payloads have so many bytes together, or fewer
    if there is no place for that."""
    text, begin, last = bytearray(room), 0, room - ROUND_PAYLOAD
    while 0 <= last - begin and total > 0:
        length = last - begin
        if length > total:
            begin, length = last - total, total
        text[begin:begin + HEAD] = head(name, length)
        total -= length
        begin += HEAD + c.choice([0, 0, 1, 7])
    text[max(0, room - 16):] = name[-room:]
    return bytes(text)


def heap(c, room):
    """Bytes that repeat so that a frame begins with each of them."""
    length = 8 * c.randrange(2, max(3, room // 16)) + 4
    return ((MAGIC + be(4, length) + c.randbytes(2)) * (room // 8 + 1))[:room]


def crowd(c, drive):
    """Puts frames over frames into an extent, so that it has about as many bytes of payloads as it may have if it isn't crowded: exactly as
    many, one more or one less, or any number near that. Mostly that is one that may be reclaimed, and what is live in it stays."""
    size, found = drive.size, scrub(drive.image())
    going = candidates(found)
    if going and c.random() < .8:
        one = c.choice(going)
        e, least = one.extent, max([0, *(item.stop for item in one.keep)])
        at = c.choice([least, found.pointers[e - 1]])
        room = size - at if c.random() < .8 else (size - at) // 2
    else:
        e, room = c.randrange(1, drive.extents), c.choice([size, size // 2, c.randrange(39, size) if size > 39 else size])
        at = c.choice([size - room, size - room, 0, c.randrange(size - room + 1)])
    begin = e * size + at
    kept, drive.raw[begin:begin + room] = bytes(drive.raw[begin:begin + room]), bytes(room)
    others = sum(claim.length for _, claim in claims_in(drive.image(), e))
    total = 4 * size - others + c.choice([0, 0, 0, 1, 1, 1, -1, c.randrange(-60, 60), c.randrange(-size, size)])
    text = heap(c, room) if c.random() < .15 else overlapping(c, c.randbytes(16), room, max(0, total))
    if c.random() < .1:
        text = kept[:c.randrange(room + 1)] + text
    drive.raw[begin:begin + room] = text[:room]


# Copies at any byte

def frame_bytes(raw, at, length):
    """The bytes of the frame at this byte of a disk, whose payload has this length."""
    return bytes(raw[at:at + length + (ROUND_SEALED if raw[at:at + 2] == SEALED_MAGIC else ROUND_PAYLOAD)])


def rotted(c, text):
    """A frame with a wrong bit: mostly in its payload, else anywhere."""
    begin = HEAD + DIGEST * (text[:2] == SEALED_MAGIC)
    at = begin + c.randrange(max(1, len(text) - ROUND_SEALED)) if c.random() < .7 else c.randrange(len(text))
    return text[:at] + bytes([text[at] ^ 1 << c.randrange(8)]) + text[at + 1:]


def loosen(c, drive, named, pointers):
    """Copies some chunks of these locators to any byte of an extent, mostly past its pointer, and has the chunks rot."""
    size = drive.size
    for e, o, length, name, _ in c.sample(named, min(len(named), c.choice([1, 1, 2, 3]))):
        text = frame_bytes(drive.raw, e * size + o, length)
        if e == 0 or e >= drive.extents or o + len(text) > size or length == 0:
            continue
        drive.raw[e * size + o:e * size + o + len(text)] = rotted(c, text)
        payload = text[-length - 16 - 2 * (text[:2] == SEALED_MAGIC):][:length]
        for _ in range(c.choice([0, 1, 1, 1, 2])):
            x = c.randrange(1, drive.extents)
            copy = text if c.random() < .7 else c.choice([frame, sealed_frame])(c.randbytes(16), payload)
            if len(copy) <= size:
                last = size - len(copy)
                least = min(last, pointers[x - 1])
                at = c.choice([least, c.randint(least, last), c.randint(least, last), c.randint(0, last), -(-least // drive.page) * drive.page])
                drive.raw[x * size + min(at, last):x * size + min(at, last) + len(copy)] = copy if c.random() < .95 else rotted(c, copy)
