"""Pairs of images for `compare`: a name, the image before and the one after, and words of calls. They are images of the disk of IMAGES in
lib/worked.py, or disks.
"""
from lib.disks import frame, locator, run, sealed_frame, shard, uuid
from lib.worked import (EXTENTS, FIRST, IMAGES, NEW, OLD, OLD_RUN, PAGE, PAGES, POINTERS, SECOND, SEVENTH, SIZE, abc_at, moved,
                        superblock, written)


def tied(old=FIRST):
    """A second record with the generation of the first."""
    return written(old, (0, SECOND, superblock(1, POINTERS, OLD)))


def named(old, pointers, *runs, generation=2, retired=None, more=()):
    """The image after more bytes and a superblock that names these runs were written, the superblock to page 3; or to page 0 if page 3
    has the one that counts."""
    return written(old, *more, (0, SECOND if generation == 2 else 0, superblock(generation, pointers, *runs, retired=retired)))


ZEROS = bytes(SIZE * EXTENTS)
RETIRED = written(FIRST, (0, 0, superblock(1, POINTERS, OLD, retired=[2])))
# A byte of the run's payload is another one.
RUN_ROTTED = written(FIRST, (3, 30, b"X"))
# A stray byte and a damaged page of extent 0; extent 2 has a tail.
DOUBTED = written(FIRST, (0, 300, b"x"), (0, 384, b"SSB1"))
# The pointer of extent 1 is a byte past its last chunk, so there is room from the next page on.
PADDED = written(FIRST, (0, 0, superblock(1, (180, 81, 232), OLD)))
# A chunk in extent 3 ends in the first two bytes of the run, which is hidden so. A copy of the run is in extent 2.
OVERLAPPING = frame(uuid(0x33)[:14] + b"\xc5\x5e", b"x" * 28)
HIDDEN, COPIED = (locator(x, o, uuid(0xAA), OLD_RUN) for x, o in ((3, 64), (2, 81)))
HELD_TWICE = written(FIRST, (3, 0, OVERLAPPING), (3, 64, frame(uuid(0xAA), OLD_RUN)), (2, 81, frame(uuid(0xAA), OLD_RUN)))
HIDDEN_RUN = written(HELD_TWICE, (0, 0, superblock(1, (179, 313, 296), HIDDEN)))
SOUND_RUN = written(HIDDEN_RUN, (0, 0, superblock(2, (179, 313, 296), COPIED)))
HIDDEN_AGAIN = written(HIDDEN_RUN, (0, 0, superblock(3, (179, 313, 296), HIDDEN)))
# The chunk that shard 1 names has rotted, and nothing has its payload until a chunk is written to the room of extent 3.
ROTTED = written(FIRST, (1, 24, b"X"))
FOUND = named(ROTTED, (179, 81, 273), OLD, more=[(3, 232, frame(uuid(0x44), b"abc"))])


def node_wrote(*entries):
    """The image after a node wrote a run to extent 3, and a superblock that names it."""
    text = run(*entries)
    newer = locator(3, 232, uuid(0xEE), text)
    return named(FIRST, (179, 81, 270 + len(text)), newer, OLD, more=[(3, 232, frame(uuid(0xEE), text))])


# A third shard names the rotten chunk, too.
OTHER_RUN = run((shard(3), [abc_at(1, 0)]))
OTHER_SHARD = written(IMAGES["rotted"], (3, 155, frame(uuid(0xEE), OTHER_RUN)),
                      (0, SECOND, superblock(2, (41, 179, 310), locator(3, 155, uuid(0xEE), OTHER_RUN),
                                             locator(3, 0, uuid(0xAA), run((shard(1), [abc_at(1, 0)]))))))


PAIRS = {
    "doubts: no superblock before": (ZEROS, FIRST, ""),
    "doubts: no superblock after": (FIRST, ZEROS, "--reset 1"),
    "doubts: no superblock on either side": (ZEROS, ZEROS, "0:5"),
    "doubts: no superblock before and a tie after": (ZEROS, tied(), ""),
    "doubts: a tie after": (FIRST, tied(), ""),
    "doubts: a tie before": (tied(), FIRST, ""),
    "doubts: a tie on both sides": (tied(), tied(), ""),
    "doubts: lost pages of extent 0": (FIRST, SEVENTH, "--reset 1 0:7 0:6"),
    "doubts: a run that is lost in both images": (RUN_ROTTED, RUN_ROTTED, ""),
    "doubts: a run that has rotted": (FIRST, RUN_ROTTED, ""),
    "doubts: doubts that can be accepted are no lines": (DOUBTED, DOUBTED, "2:7"),
    "doubts: an older superblock": (SEVENTH, written(SEVENTH, (0, SECOND, bytes(190))), ""),
    "doubts: a superblock of the same generation": (FIRST, written(FIRST, (0, 0, superblock(1, (0, 81, 232), OLD))), ""),
    "pointer: a greater one in an extent with room": (FIRST, named(FIRST, (200, 81, 232), OLD), ""),
    "pointer: a greater one in an extent without room": (FIRST, named(FIRST, (200, 81, 232), OLD), "1:7"),
    "pointer: a greater one in the extent to reset": (SEVENTH, named(SEVENTH, (200, 81, 428), NEW, OLD, generation=3), "--reset 1"),
    "pointer: a smaller one over garbage": (SEVENTH, named(SEVENTH, (178, 81, 428), NEW, OLD, generation=3), "--reset 1"),
    "pointer: two smaller ones over garbage": (FIRST, named(FIRST, (41, 80, 232), OLD), ""),
    "pointer: 0 in an extent that isn't given": (SEVENTH, IMAGES["8"], ""),
    "pointer: 0 in another extent than the one that is given": (SEVENTH, IMAGES["8"], "--reset 2"),
    "pointer: one of a retired extent": (RETIRED, named(RETIRED, (179, 90, 232), OLD, retired=[2]), ""),
    "pointer: one before OFFSET, over zeros": (PADDED, named(PADDED, (185, 81, 232), OLD), ""),
    "pointer: one at OFFSET": (PADDED, named(PADDED, (192, 81, 232), OLD), ""),
    "written: a byte of extent 0": (FIRST, written(FIRST, (0, 511, b"x")), ""),
    "written: a byte behind a superblock": (FIRST, written(SEVENTH, (0, 383, b"x")), "--reset 1"),
    "written: the first page of a superblock": (FIRST, written(FIRST, (0, SECOND, SEVENTH[SECOND:SECOND + 64])), ""),
    "written: its last page": (FIRST, written(FIRST, (0, 320, SEVENTH[320:384])), ""),
    "written: zeros over a part of an older superblock": (SEVENTH, written(SEVENTH, (0, 0, bytes(64))), ""),
    "written: a part of the superblock that counts": (FIRST, written(FIRST, (0, 20, b"x")), ""),
    "written: garbage that has rotted": (FIRST, written(FIRST, (1, 100, b"x")), ""),
    "written: the same in the extent to reset": (SEVENTH, written(SEVENTH, (1, 100, b"x")), "--reset 1"),
    "written: an extent that was erased too early": (SEVENTH, written(SEVENTH, (1, 0, bytes(SIZE))), "--reset 1"),
    "written: an extent that was erased after its reset": (IMAGES["8"], written(IMAGES["8"], (1, 0, bytes(SIZE))), ""),
    "written: a retired extent": (RETIRED, written(RETIRED, (2, 500, b"x")), "--reset 1"),
    "written: a node's chunk, without a superblock": (FIRST, written(FIRST, (3, 232, frame(uuid(0x66), b"node"))), ""),
    "written: the same behind a copy": (FIRST, written(SEVENTH, (3, 428, frame(uuid(0x66), b"node"))), "--reset 1"),
    "written: nothing by a copy that begins a byte behind OFFSET": (FIRST, moved(3, 233), "--reset 1"),
    "written: zeros over a part of an old tail, behind a copy": (FIRST, written(moved(2, 81), (2, 277, bytes(3))), "--reset 1"),
    "written: zeros over a part of an old tail, in an extent without room": (FIRST, written(FIRST, (2, 250, bytes(1))), "2:7"),
    "written: an old tail that was erased": (FIRST, written(FIRST, (2, 250, bytes(30))), ""),
    "written: in all extents": (FIRST, written(FIRST, (0, 200, b"x"), (1, 9, b"x"), (2, 511, b"x"), (3, 500, b"x")), "0:7 1:7 2:6"),
    "written: pages that only the second file has": (FIRST[:-2 * PAGE], FIRST, ""),
    "written: pages that only the first file has": (FIRST, FIRST[:-PAGE - 1], ""),
    "written: a part of a page more": (FIRST[:-PAGE], FIRST[:-1], ""),
    "written: a file of one page and one of two": (FIRST[:PAGE], FIRST[:2 * PAGE + 1], ""),
    "named: the run": (FIRST, FIRST, "--reset 3"),
    "named: the run and a shard": (FIRST, FIRST, "--reset 3 --reset 2 --reset 3"),
    "named: what is left of a broken shard": (ROTTED, ROTTED, "--reset 1"),
    "named: a locator into a retired extent": (RETIRED, RETIRED, "--reset 2"),
    "named: a spare isn't named": (IMAGES["forgot"], IMAGES["forgot"], "--reset 3"),
    "manifest: an extent that is retired": (FIRST, named(FIRST, POINTERS, OLD, retired=[2]), ""),
    "manifest: an extent that isn't retired any more": (RETIRED, named(RETIRED, POINTERS, OLD), ""),
    "manifest: a hidden run, and the same": (HIDDEN_RUN, HIDDEN_RUN, ""),
    "manifest: a hidden run, and then none": (HIDDEN_RUN, SOUND_RUN, ""),
    "manifest: no hidden run, and then one": (SOUND_RUN, HIDDEN_AGAIN, ""),
    "manifest: a hidden run, and then another superblock with it": (HIDDEN_RUN, HIDDEN_AGAIN, ""),
    "manifest: none that became spare": (ROTTED, FOUND, ""),
    "manifest: spare that became none": (FOUND, FOUND, "--reset 3"),
    "manifest: a spare that would go, and a new shard": (IMAGES["rotted"], OTHER_SHARD, "--reset 2"),
    "manifest: a new shard": (FIRST, node_wrote((shard(3), [abc_at(1, 0)])), ""),
    "manifest: a shard that is deleted": (FIRST, node_wrote((shard(2), [])), ""),
    "manifest: a shard with one locator more": (FIRST, node_wrote((shard(1), [abc_at(1, 0)] * 2)), ""),
    "manifest: a shard with another payload": (FIRST, node_wrote((shard(1), [locator(2, 0, uuid(0x22), b"de")])), ""),
    "manifest: a chunk in the other form": (FIRST, moved(3, 232, sealed_frame(uuid(0x11), b"abc")), "--reset 1"),
    # Without a page of its chunk a shard is broken in both images; without one of the run both have a doubt.
    "each page in turn": (FIRST, FIRST, *(f"{extent}:{page}" for extent in range(1, EXTENTS) for page in range(PAGES))),
}
