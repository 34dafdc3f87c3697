"""What may come of the mistakes of a walk through the checklist, and of what happens to the disk meanwhile. All that isn't in the lists
UNSEEN, TOO_LATE and HARMLESS has to be stopped by a box before bytes are lost."""
import lib.asking
from lib import accidents
from lib.mistakes import MISTAKES
from lib.node import require
from lib.trials import row

# What no image shows: it passes, and bytes may be lost.
UNSEEN = {
    "the generation is taken from the disk, and the newest superblock is damaged",
    "a run was written after the last superblock, and the log isn't read to its end",
    # The tools write over all of it, and no superblock names it.
    *(f"the node writes a {what} before the copies" for what in ("chunk", "run")),
    # No image is made any more.
    *(f"{what} before the erase" for what in (
        "a copy rots", "the run rots", "the superblock that counts goes", "a page becomes unreadable", "the node writes a chunk",
        "the node writes a run", "the node writes a superblock")),
    "another extent is erased than that of box 9",
}
# What is stopped, but where bytes may be lost by then. The first image still has those that it had.
TOO_LATE = {
    "a copy is written some bytes too late", "a copy is written some bytes too early", "a copy goes into a wrong extent by a slip",
    "a copy goes past the end of its extent", "a copy goes over a chunk in use", "a copy goes over a loose copy, in an extent without room",
    "a copy goes over what is left of a broken shard behind a pointer, in an extent without room",
    "the superblock: it is written into another extent", "something else is written with the superblock",
    *(f"the extent is erased {when}" for when in ("before box 4", "before the copies", "before the superblock")),
    *(f"the node writes a {what} before the {part}" for what in ("chunk", "run", "superblock") for part in ("copies", "superblock")),
}
# What may pass. Nothing is lost by that alone.
HARMLESS = {
    "a run's chunk is framed anew in the other form", "a copy begins at a page behind OFFSET",
    "the pointer of an extent with copies is too great", "the pointer of another extent is too great",
    *(f"the superblock: {what}" for what in (
        "an older run is forgotten", "two older runs are exchanged", "it is written over the one that counts",
        "what is left of an overwritten one isn't zeroed")),
    "box 7 is misread, and an older run was forgotten",
    # Where the images are the same, or the bytes on the unreadable pages don't matter.
    *(f"box {number} lacks the unreadable pages" for number in (1, 4, 7, 8, 9)),
    *(f"box {number}: {what}" for number in (4, 9) for what in (
        "the images are exchanged", "the older image is given twice", "the newer image is given twice")),
    "the first image is made anew before the superblock",
    # The tools know what it had, and write the next one.
    *(f"the superblock that counts goes {when}" for when in ("before the copies", "before the superblock")),
    # Nothing that is named is in the one more.
    "box 7: one more extent is given",
    # The extent had only zeros, or is reset already; or what nothing names is erased.
    *(f"the extent is erased {when}" for when in accidents.BETWEEN.values()), "another extent is erased",
    # The walk begins again.
    *(f"the power fails {when}" for when in accidents.BETWEEN.values()),
    "the power fails, and some sectors are written", "the power fails while the superblock is written",
    "the power fails when the superblock has just been written",
    # The node writes what it has in memory, or the shards that it is told.
    "the newest superblock goes, and the node still runs", "the node writes over a loose copy once it has the disk back",
    "a superblock of an older format has a greater generation", "the generation is one of the greatest",
    "a chunk that was moved has rotted",
    # Its copy is named by then.
    "a chunk rots at its old place before the erase",
    # Nothing is wrong that they could stop.
    "box 4 isn't asked", "box 7 isn't asked", "box 8 isn't asked", "boxes 7 and 8 aren't asked",
}


# Boxes and rules without which bytes are lost and no box stops it, and what shows it.
NEEDED = {
    **{f"a page becomes unreadable {when}": "restore" for when in accidents.BETWEEN.values() if when != "before the erase"},
    "another extent is erased": 9, "the extents of three reclamations are erased at the end": 9,
    "the node is back before the extent is erased": 9,
    "a superblock of an older format has a greater generation": "older format",
    "box 7 is misread, and an older run was forgotten": "way back",
    "a chunk that was moved has rotted": "loose copies",
    "the power fails, and some sectors are written": "flush",
    "the power fails while the superblock is written": "beside the one that counts",
    "a chunk rots, and the power fails": "images of before",
    "the newest superblock goes, and the node still runs": "in memory",
    "the node merges its runs, and one is hidden": "hidden runs",
    "the node writes over a loose copy once it has the disk back": "giving back",
}
# A rule without which the walk can't begin again.
DEAD_END = "the superblock that counts goes before box 7", "way back"


def is_expected(one, outcome):
    """Whether this may come of a mistake. A walk that begins again isn't stopped again."""
    boxes, is_lost = outcome
    if not boxes:
        return one.name in UNSEEN or one.name in HARMLESS and not is_lost
    return len(boxes) == 1 and (not is_lost or one.name in TOO_LATE)


def judge_mistake(one, found):
    """A mistake has to be stopped by a box before bytes are lost, unless a list says otherwise."""
    require(found, f"{one.name}: never made")
    require(all(is_expected(one, outcome) for outcome in found), row(one.name, found))


def judge_without(one, rule, found):
    """Without a box or a rule that is needed it isn't so."""
    require(any(is_lost or len(boxes) > 1 for boxes, is_lost in found), row(f"{one.name}, without {rule}", found))
