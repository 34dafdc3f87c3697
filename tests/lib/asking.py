"""The mistakes of a walk through the checklist in what is asked: of which image, with which generation, sizes, pages and extents; and
answers that aren't asked for. See lib/mistakes.py."""
from lib.mistakes import MISTAKES, Mistake, flipped, mistake, parsed
from lib.node import Drive, frames_in, named_locators, place_of
from reference.shardscrub import choose, loose_of, scrub

# The first image and the log

def has_owed(walk):
    """Whether a spare is to be copied that no locator names."""
    named = {place_of(c) for _, c, status in named_locators(walk.drive) if status == "sound"}
    return any(part.word == "spare" and part.place not in named for part in walk.parts)


def other_generation(numbers):
    return lambda walk, last: next((g for g in [last + walk.choice.choice(numbers)] if 0 <= g < 2 ** 64), None)


mistake("the generation that is given is smaller", "last generation", often=True)(other_generation([-1]))
mistake("the generation that is given is greater", "last generation")(other_generation([1, 9, 2 ** 32]))
mistake("the newest superblock is damaged", "last generation", drive="damaged")(lambda walk, last: last)
mistake("the generation is taken from the disk, and the newest superblock is damaged", "last generation", drive="damaged")(
    lambda walk, last: choose(walk.drive.image())["generation"])
mistake("a run was written after the last superblock", "last generation", drive="later")(lambda walk, last: last)
mistake("a run was written after the last superblock, and the log isn't read to its end", "written after", drive="later")(
    lambda walk, is_written: False)
mistake("a spare is accepted, and its chunk isn't copied", "copies", drive="spare")(
    lambda walk, parts: [part for part in parts if part.place not in [one.place for one in walk.owed]] if has_owed(walk) else None)



def has_last_copy(walk, part):
    """Whether this is a loose copy that was accepted, and there is no other but in the extents to reset."""
    if part.word != "loose":
        return False
    others = [e for e in range(1, walk.drive.extents) if e not in walk.chosen]
    payload = parsed(walk.drive.read(*part.place, part.count))[2]
    around = [one for one in walk.parts if one is not part and one.place[0] == part.place[0]
              and one.place[1] <= part.place[1] < one.place[1] + one.count]
    return not around and not any(payload == other for e in others for _, other in frames_in(walk.drive, e, walk.drive.size))


@mistake("a loose copy is accepted, and its frame isn't copied", "copies", drive="moved")
def _(walk, parts):
    left = [part for part in parts if not has_last_copy(walk, part)]
    return left if left != parts else None


@mistake("a bit changes while a loose copy is copied", "copy", drive="moved")
def _(walk, text):
    return flipped(walk, text) if has_last_copy(walk, walk.parts[walk.current]) else None


@mistake("a copy goes over a loose copy, in an extent without room", "target", drive="moved")
def _(walk, target):
    part, found = walk.parts[walk.current], scrub(walk.first.image())
    some = [(e, item.start) for c in found.checked for e, item in loose_of(found, c)
            if e not in walk.chosen and item.start + part.count <= walk.drive.size]
    return walk.choice.choice(some) if some else None


def older_image(walk, drive):
    """The image before the last superblock."""
    return drive.copy(drive.older[-1]) if drive.older and choose(drive.copy(drive.older[-1]).image())["page"] is not None else None


def other_sizes(drive):
    if drive.pages % 2:
        return None
    lost = [divmod(e * drive.pages + g, drive.pages // 2) for e, g in drive.unreadable]
    return Drive(drive.page, drive.pages // 2, drive.extents * 2, drive.raw, lost)


def without_pages(drive):
    """The image without its unreadable pages, which read as zeros."""
    other = drive.copy()
    for e, g in drive.unreadable:
        other.write(e, g * drive.page, bytes(drive.page))
    other.unreadable = frozenset()
    return other if drive.unreadable else None


def both(change):
    """The two images that `compare` gets, each changed; None if they can't be."""
    def make(walk, images):
        changed = [change(drive) for drive in images]
        return None if None in changed else changed
    return make


mistake("the first image is from before the last superblock", "first image")(older_image)
mistake("box 1 has other sizes", "image of box 1", often=True)(lambda walk, drive: other_sizes(drive))
mistake("box 1 lacks the unreadable pages", "image of box 1", often=True)(lambda walk, drive: without_pages(drive))
for number in (4, 7, 8, 9):
    point = f"images of box {number}"
    mistake(f"box {number} has other sizes", point)(both(other_sizes))
    mistake(f"box {number} lacks the unreadable pages", point)(both(without_pages))
    mistake(f"box {number}: the images are exchanged", point)(lambda walk, images: images[::-1])
    mistake(f"box {number}: the older image is given twice", point)(lambda walk, images: [images[0]] * 2)
    mistake(f"box {number}: the newer image is given twice", point)(lambda walk, images: [images[1]] * 2)


# The extents of box 7

def other_extents(walk, extents):
    """The first extent that isn't among these."""
    return [e for e in range(1, walk.drive.extents) if e not in extents][:1]


for what, make in (("no extent is given", lambda walk, extents: []),
                   ("another extent is given", lambda walk, extents: other_extents(walk, extents) or None),
                   ("one more extent is given", lambda walk, extents: [*extents, *other_extents(walk, extents)]),
                   ("one of several extents is given", lambda walk, extents: extents[:1] if len(extents) > 1 else None)):
    mistake(f"box 7: {what}", "resets of box 7")(make)


# What isn't asked

for name, *without in (("box 4 isn't asked", "compare of box 4"), ("box 7 isn't asked", 7), ("box 8 isn't asked", 8),
                       ("boxes 7 and 8 aren't asked", 7, 8)):
    MISTAKES.append(Mistake(name, "never", None, without=without))
