"""The laws of acting, held on disks and on pairs of disks: those of spares, loose copies, --last, sound disks, bytes, copies, resets,
manifests and shards; and those of `compare`, held on made-up pairs of images that it calls safe."""
import random

from lib.drives import worked
from lib.made_up import History, Made, Tended, junk, made_pair, write_something
from lib.node import (Broken, Drive, Full, acceptable, all_accepted, are_risen, chunks_of, doubts_in, frames_in, held, is_held, is_risen,
                      lines_with, named_locators, place_of, require)
from reference.shardscrub import BEST, BY_LAST, HEAD, choose, claims_in, frame_at, records_of, sha


# Spares and loose copies

def hold_spares(engine, drive, seen):
    """If no line begins with `doubt` or `accepted spare`, each dangling locator that has a spare has one that is live or in an
    extent that isn't listed."""
    text, _ = engine.ask(drive, "reclaimable")
    text, _ = engine.ask(drive, "reclaimable", [t for t in acceptable(doubts_in(text)) if not t.startswith("spare ")])
    if any(line.startswith(("doubt ", "accepted spare ")) for line in text.splitlines()):
        return
    listed = {int(words[1]) for words in lines_with(text, "reclaim")}
    chosen, image = choose(drive.image()), drive.image()
    frames = []
    for e in range(1, drive.extents):
        if e not in chosen["retired"]:
            for start, _, _, _ in chunks_of(drive, e, chosen["pointers"][e - 1]):
                frames.append((e, start, frame_at(image, e, chosen["pointers"][e - 1], start)[3]))
    named = named_locators(drive)
    live = {(c["extent"], c["offset"]) for _, c, status in named if status == "sound"}
    for owner, c, status in named:
        if status in ("sound", "hidden") or c["length"] == 0:
            continue
        places = [(e, o) for e, o, p in frames if len(p) == c["length"] and sha(p) == c["digest"]]
        if places:
            seen["law of spares: a dangling locator with spares"] += 1
            require(any(place in live or place[0] not in listed for place in places), "law of spares:", owner, places, text)


def frames_of(drive):
    """The frames at any byte of each extent in use, pairs of an extent and a payload; and the crowded extents, whose frames aren't among
    them."""
    image, chosen, frames, crowded = drive.image(), choose(drive.image()), [], []
    for e in range(1, drive.extents):
        if e in chosen["retired"]:
            continue
        if sum(claim.length for _, claim in claims_in(image, e)) > 4 * drive.size:
            crowded.append(e)
        else:
            frames += [(e, payload) for _, payload in frames_in(drive, e, drive.size)]
    return frames, crowded


def payloads_of_chunks(drive):
    """The payloads of all chunks."""
    image, chosen = drive.image(), choose(drive.image())
    return [frame_at(image, e, w, start)[3] for e, w in enumerate(chosen["pointers"], 1) if e not in chosen["retired"]
            for start, _, _, _ in chunks_of(drive, e, w)]


def copies_by_place(drive):
    """For each named locator that dangles and asks for bytes: itself, whether it has a spare, and the extents of the frames with what it
    asks for; and the crowded extents."""
    frames, crowded = frames_of(drive)
    chunks = {(len(payload), sha(payload)) for payload in payloads_of_chunks(drive)}
    listed = []
    for owner, c, status in named_locators(drive):
        if status not in ("sound", "hidden") and c["length"] > 0:
            asked = c["length"], c["digest"]
            listed.append((owner, asked in chunks, {e for e, payload in frames if (len(payload), sha(payload)) == asked}))
    return listed, crowded


def accepting_but(engine, drive, kind):
    """The listing with all doubts accepted but those of a kind, or None if a line begins with `doubt` or is an accepted one of this kind."""
    text, _ = engine.ask(drive, "reclaimable")
    text, _ = engine.ask(drive, "reclaimable", [line for line in acceptable(doubts_in(text)) if not line.startswith(kind + " ")])
    return None if any(line.startswith(("doubt ", f"accepted {kind} ")) for line in text.splitlines()) else text


def extents_with(text, *words):
    return {int(line[1]) for word in words for line in lines_with(text, word)}


def hold_loose(engine, drive, seen):
    """If no line begins with `doubt` or `accepted loose`, each named locator with a loose copy has one in an extent without a `reclaim` and
    without a `room` line. If none begins with `doubt` or `accepted crowded`, and a payload is gone, no crowded extent is in a line."""
    listed, crowded = copies_by_place(drive)
    gone = [extents for _, has_spare, extents in listed if not has_spare]
    if (text := accepting_but(engine, drive, "loose")) is not None:
        for extents in filter(None, gone):
            seen["law of loose copies: a locator that has some"] += 1
            require(extents - extents_with(text, "reclaim", "room"), "law of loose copies:", extents, text)
            seen["law of loose copies: an extent is listed"] += extents_with(text, "reclaim") != set()
            require(not extents & extents_with(text, "last-room"), "law of loose copies: last-room", extents, text)
    if gone and (text := accepting_but(engine, drive, "crowded")) is not None:
        for e in crowded:
            seen["law of crowded extents"] += 1
            require(e not in extents_with(text, "reclaim", "room", "last-room"), "law of crowded extents:", e, text)


def hold_last_words(engine, drive, seen):
    """What the manifest says of a shard's locator that dangles: `spare` if a chunk has what it asks for, `loose` if only another frame at
    any byte of an extent in use that isn't crowded, and else `none`."""
    listed, _ = copies_by_place(drive)
    words = [line.split() for line in engine.manifest(drive)[0].splitlines()]
    found = [line[-1] for line in words if line[0] == "shard" and line[-1] in BEST and int(line[3]) > 0]
    right = ["spare" if has_spare else "loose" if extents else "none" for owner, has_spare, extents in listed if isinstance(owner, bytes)]
    require(found == right, "last words:", found, right)
    seen.update(f"last word: {word}" for word in found)


def with_a_copy_in_garbage(choice, drive):
    """The disk after a shard's chunk has rotted, with a whole copy of it in the place of a part of a chunk that nothing names, which may be
    damaged then. None if there are no such chunks."""
    named = named_locators(drive)
    live = {place_of(c) for _, c, status in named if status == "sound"}
    whole = [c for owner, c, status in named if isinstance(owner, bytes) and status == "sound" and c["length"] > 0]
    if not whole:
        return None
    c = choice.choice(whole)
    chosen = choose(drive.image())
    form, *_, stop = frame_at(drive.image(), c["extent"], chosen["pointers"][c["extent"] - 1], c["offset"])
    copy = drive.read(c["extent"], c["offset"], stop - c["offset"])
    garbage = [(e, a, b) for e in range(1, drive.extents) if e not in chosen["retired"] and e != c["extent"]
               for a, b, _, _ in chunks_of(drive, e, chosen["pointers"][e - 1]) if (e, a) not in live and b - a >= len(copy)]
    if not garbage:
        return None
    e, a, b = choice.choice(sorted(garbage))
    after = drive.copy()
    after.write(e, choice.randint(a, b - len(copy)), copy)
    if choice.random() < .5:
        after.raw[e * drive.size + choice.choice([a, b - 1])] ^= 1
    after.raw[c["extent"] * drive.size + c["offset"] + HEAD + form.seal] ^= 1
    return after


def generations(choice, counts):
    """Numbers for --last: the generation that counts, and two others."""
    others = {0, 1, 2 ** 64 - 1, *([counts - 1, counts + 1] if counts is not None else [])} - {counts}
    return [*([] if counts is None else [counts]), *choice.sample([g for g in sorted(others) if 0 <= g < 2 ** 64], 2)]


def hold_last(engine, drive, choice, seen):
    """If an extent is listed with `--last G`, the superblock that counts has generation G, and each doubt is accepted by its line or is
    of one of four kinds."""
    counts = choose(drive.image())["generation"]
    for last in generations(choice, counts):
        doubts = doubts_in(engine.ask(drive, "reclaimable", last=last)[0])
        some = [line for line in acceptable(doubts) if choice.random() < .9]
        text, clear = engine.ask(drive, "reclaimable", some, last=last)
        is_listed, is_in_doubt = (any(line.startswith(word) for line in text.splitlines()) for word in ("reclaim ", "doubt "))
        require(clear != is_in_doubt, "law of --last: status", text)
        require(not is_listed or counts == last, "law of --last: listed by generation", counts, "for", last, text)
        for words in lines_with(text, "accepted"):
            line = " ".join(words[1:])
            require(line in some or counts == last and words[1] in BY_LAST, "law of --last: accepted", line)
        if counts == last:
            same = engine.ask(drive, "reclaimable", some + [line for line in doubts if line.split()[0] in BY_LAST])
            require((text, clear) == same, "law of --last: other than by lines", text, same[0])
        seen["law of --last: listed"] += is_listed
        seen["law of --last: another generation"] += counts != last


def hold_verdicts(engine, drive, choice, seen):
    """What the verdict `sound` says, without --last and with it."""
    chosen, (text, is_sound) = choose(drive.image()), engine.ask(drive, "summary")
    if is_sound:
        records = records_of(drive.image())
        held = {i for page, r in records.items() for i in range(page * drive.page, page * drive.page + r.length)}
        require(all(i in held for i, byte in enumerate(drive.read(0, 0, drive.size)) if byte), "law of a sound disk: bytes of extent 0")
        for command in ("locators", "superblocks"):
            require(engine.ask(drive, command)[1], "law of a sound disk: status of", command)
        require(engine.manifest(drive)[1:] == (True, []), "law of a sound disk: manifest")
        doubts = doubts_in(engine.ask(drive, "reclaimable")[0])
        require(all(line.startswith("tail ") for line in doubts), "law of a sound disk: doubts", doubts)
        seen["law of a sound disk"] += 1
        seen["law of a sound disk: a tail"] += doubts != []
    for last in generations(choice, chosen["generation"]):
        other, is_good = engine.ask(drive, "summary", last=last)
        require(is_good == (is_sound and last == chosen["generation"]), "verdict with --last", last, other)
        require(other.splitlines()[1:] == text.splitlines()[1:], "summary with --last", last, text, other)
        listing, clear = engine.ask(drive, "reclaimable", last=last)
        require(not is_good or clear and "doubt " not in listing, "law of a sound disk: --last", last, listing)
        seen["law of a sound disk: sound by --last"] += is_good


def hold_laws_of_a_node(engine, seed, seen):
    """Holds the laws of --last and of sound disks on a disk whose node just wrote its superblock, and on one with a byte after that."""
    choice = random.Random(seed)
    try:
        drive, node = worked(choice)
    except Full:
        return
    node.superblock()
    if choice.random() < .5:
        drive.write(choice.randrange(drive.extents), choice.randrange(drive.size), b"x")
    hold_last(engine, drive, choice, seen)
    hold_verdicts(engine, drive, choice, seen)


def rewritten(choice, drive, pointers, retired, runs, unreadable=()):
    """The disk with another extent 0: a superblock that counts with these fields, and anything beside it. None if it doesn't
    fit."""
    text = drive.record(choice.choice([1, 5, 2 ** 64 - 1]), pointers, retired, runs)
    places = drive.pages - (len(text) - 1) // drive.page
    if places < 1:
        return None
    after = drive.copy()
    after.raw[:min(drive.size, len(after.raw))] = bytes(min(drive.size, len(after.raw)))
    for _ in range(choice.choice([0, 0, 1, 3])):
        after.write(0, choice.randrange(drive.pages) * drive.page, choice.choice([b"SSB1", b"SSB2", b"stray"]))
    if choice.random() < .2:
        other, start = drive.record(0, pointers[::-1], [], []), choice.randrange(drive.pages) * drive.page
        after.write(0, start, other[:drive.size - start])
    at = choice.randrange(places) * drive.page
    after.write(0, at, text)
    pages = range(at // drive.page, (at + len(text) - 1) // drive.page + 1)
    lost = {(0, g) for g in range(drive.pages) if g not in pages and choice.random() < .1}
    after.unreadable = frozenset({(e, g) for e, g in drive.unreadable if e != 0} | lost | set(unreadable))
    if choice.random() < .2 and pages[-1] + len(pages) < drive.pages and not lost:
        after.write(0, (pages[-1] + 1) * drive.page, text)
    found = choose(after.image())
    if (found["page"], found["pointers"], found["retired"], found["runs"]) != (pages[0], pointers, retired, runs):
        return None
    return after


def hold_shards(engine, drive, after, which, seen):
    """The bytes that `shard` writes of one disk, it writes of another. A payload that is lost may be found."""
    for identifier in sorted({words[1] for words in lines_with(engine.manifest(drive)[0], "shard")}):
        before, now = (engine.shard(one, bytes.fromhex(identifier)) for one in (drive, after))
        is_lost = before[0] == b"" and "".join(before[1]).startswith("payload lost: ")
        seen[f"{which}: bytes of a shard"] += not is_lost
        seen[f"{which}: a lost payload"] += is_lost
        require(before == now or is_lost, which, "shard", identifier, before, now)


def hold_copies(engine, drive, choice, seen):
    text, clear = all_accepted(engine, drive)
    rooms = [(word, int(e), int(at)) for word in ("room", "last-room") for _, e, at, _ in lines_with(text, word)]
    if not rooms:
        return
    chosen = choose(drive.image())
    pointers = list(chosen["pointers"])
    changed, ends = drive.copy(), {}
    for word, x, at in choice.sample(rooms, choice.randint(1, len(rooms))):
        text, stops = junk(choice, drive)
        changed.write(x, at, text[:drive.size - at])
        stops = [at + stop for stop in stops if at + stop <= drive.size]
        pointers[x - 1] = choice.choice([at, drive.size, choice.randint(at, drive.size), *stops, *stops])
        ends[x] = (word, at, [stop for stop in stops if stop <= pointers[x - 1]])
    after = rewritten(choice, changed, pointers, chosen["retired"], chosen["runs"])
    if after is None:
        return
    first, second = engine.manifest(drive)[0], engine.manifest(after)[0]
    require(are_risen(first, second), "law of a copy (1):", first, second)
    seen["law of a copy: a last word rose"] += first != second
    seen["law of a copy: beside a loose copy"] += " loose\n" in first
    for x, (word, at, stops) in ends.items():
        before, now = chunks_of(drive, x, chosen["pointers"][x - 1]), chunks_of(after, x, pointers[x - 1])
        require(before <= now, "law of a copy (2): extent", x, before - now)
        starts = [at, *stops]
        require({(a, b) for a, b in zip(starts, stops)} <= {(a, b) for a, b, *_ in now}, "law of a copy (3): extent", x, stops, now)
        seen[f"law of a copy: {word}"] += 1
        seen["law of a copy: OFFSET behind the pointer"] += at > chosen["pointers"][x - 1]
        seen["law of a copy: frames"] += len(stops)
    seen["law of a copy: several extents"] += len(ends) > 1
    hold_shards(engine, drive, after, "law of a copy (4)", seen)


def spoilt_extents(choice, drive, extents):
    """The disk with anything in these extents, and their unreadable pages."""
    after = drive.copy()
    lost = {(e, g) for e, g in drive.unreadable if e not in extents}
    for e in extents:
        after.write(e, 0, choice.choice([bytes(drive.size), junk(choice, drive)[0], drive.read(e, 0, drive.size)]))
        lost |= {(e, g) for g in range(drive.pages) if choice.random() < .1}
    after.unreadable = frozenset(lost)
    return after


def named_with_forms(engine, drive):
    """The named locators with their statuses, and the forms of the sound ones of shards."""
    text, _ = engine.ask(drive, "locators")
    lines = [line for line in text.splitlines() if not line.startswith(("spare ", "loose "))]
    forms = []
    for owner, c, status in named_locators(drive):
        if status == "sound":
            pointer = choose(drive.image())["pointers"][c["extent"] - 1]
            forms.append(frame_at(drive.image(), c["extent"], pointer, c["offset"])[0].word)
    return lines, forms


def gives_up(text):
    """Whether a spare or a loose copy is accepted."""
    return lines_with(text, "accepted spare") != [] or lines_with(text, "accepted loose") != []


def hold_resets(engine, drive, choice, seen):
    chosen = choose(drive.image())
    some = sorted(choice.sample(range(1, drive.extents), choice.randint(1, min(3, drive.extents - 1))))
    if chosen["page"] is None:
        require(engine.manifest(drive, some)[:2] == ("no-superblock\n", False), "law of a reset: no superblock")
        return
    reset = [0 if e in some else w for e, w in enumerate(chosen["pointers"], 1)]
    after = rewritten(choice, spoilt_extents(choice, drive, some), reset, chosen["retired"], chosen["runs"])
    if after is not None:
        foreseen, now = engine.manifest(drive, some)[0], engine.manifest(after)[0]
        require(are_risen(foreseen, now), "law of a reset (1):", some, foreseen, now)
        seen["law of a reset: foreseen"] += 1
        seen["law of a reset: foreseen, with another text"] += foreseen != engine.manifest(drive)[0]
        seen["law of a reset: foreseen, and a last word rose"] += foreseen != now
    text, _ = all_accepted(engine, drive)
    moved = {int(words[1]) for words in lines_with(text, "move")}
    free = [int(words[1]) for words in lines_with(text, "reclaim") if int(words[1]) not in moved]
    if not free:
        return
    free = sorted(choice.sample(free, choice.randint(1, len(free))))
    any_pointers = [choice.choice([0, drive.size, choice.randint(0, drive.size)]) if e in free else w
                    for e, w in enumerate(chosen["pointers"], 1)]
    after = rewritten(choice, spoilt_extents(choice, drive, free), any_pointers, chosen["retired"], chosen["runs"])
    if after is not None:
        before, now = named_with_forms(engine, drive), named_with_forms(engine, after)
        require(before == now, "law of a reset (2):", free, before, now)
        seen["law of a reset: listed without a move"] += 1
        seen["law of a reset: several listed"] += len(free) > 1
        if not gives_up(text):
            old, new = engine.manifest(drive)[0], engine.manifest(after)[0]
            require(are_risen(old, new), "law of a reset (5):", free, old, new)
            seen["law of a reset: whatever is in it, beside a loose copy"] += " loose\n" in old
            hold_shards(engine, drive, after, "law of a reset (4)", seen)
    if not gives_up(text):
        require(engine.manifest(drive, free)[0] == engine.manifest(drive)[0], "law of a reset (3):", free)
        seen["law of a reset: the manifest stays"] += 1
    else:
        seen["law of a reset: a copy accepted"] += 1


def are_alike(old, new):
    """Whether two manifests are the same, but for last words."""
    lines, others = old.splitlines(), new.splitlines()
    return len(lines) == len(others) and all(is_risen(a, b) or is_risen(b, a) for a, b in zip(lines, others))


def hold_bytes_below(engine, drive, choice, seen):
    """A manifest rests on the bytes below the write pointers of the extents in use, its last words on all bytes of these, and nothing on
    a retired extent."""
    chosen = choose(drive.image())
    if chosen["page"] is None:
        return
    old = engine.manifest(drive)[0]
    for what, share in (("past the pointers", .7), ("in retired extents", 0)):
        changed, lost = drive.copy(), set(drive.unreadable)
        for e, w in enumerate(chosen["pointers"], 1):
            place = 0 if e in chosen["retired"] else w
            if e in chosen["retired"] or choice.random() < share:
                changed.write(e, place, junk(choice, drive)[0][:drive.size - place])
                pages = [(e, g) for g in range(-(-place // drive.page), drive.pages)]
                lost = (lost - set(pages)) | {page for page in pages if choice.random() < .1}
        changed.unreadable = frozenset(lost)
        after = rewritten(choice, changed, chosen["pointers"], chosen["retired"], chosen["runs"])
        if after is None:
            continue
        new = engine.manifest(after)[0]
        require(are_alike(old, new) if share else old == new, "law of bytes", what, "\n" + old, new)
        seen[f"law of bytes {what}"] += 1
        seen["law of bytes: another last word"] += old != new
        seen["law of bytes: a retired extent was written"] += not share and chosen["retired"] != []


def hold_manifest(engine, drive, seen):
    """What the manifest says is what the report and the named locators say."""
    text, good, remarks = engine.manifest(drive)
    chosen = choose(drive.image())
    pages = [line.split() for line in engine.ask(drive, "superblocks")[0].splitlines()]
    lost = [f"superblock lost: {words[1]}" for words in pages if words[0] in ("lost", "damaged")]
    require(remarks == lost + ["tie"] * any(words[-1] == "tie" for words in pages), "remarks", remarks, pages)
    seen.update(f"remark: {remark.partition(':')[0]}" for remark in remarks)
    if chosen["page"] is None:
        require((text, good) == ("no-superblock\n", False), "manifest without a superblock")
        return
    lines = text.splitlines()
    require(lines == sorted(lines, key=str.encode) and text.endswith("\n"), "the manifest isn't sorted", text)
    require(lines[0].split() == ["retired", *map(str, chosen["retired"])], "retired extents", text)
    named = named_locators(drive)
    shards = [(owner, c, status) for owner, c, status in named if isinstance(owner, bytes)]
    require(lines[-1] == f"total {len({owner for owner, _, _ in shards})} {len(shards)}", "total", text)
    for line, (owner, c, status) in zip(lines[2:-1], shards, strict=True):
        words = line.split()
        require(words[:2] + words[3:6] == ["shard", owner.hex(), str(c["length"]), c["digest"].hex(), status], "a line of the manifest", line)
        require(len(words) == (7 if status == "sound" else 9 if status == "hidden" else 10), "words of a line", line)
        seen["manifest: " + status + (" " + words[-1] if status != "hidden" else "")] += 1
    is_whole = lines[1] == "runs lost 0 hidden 0" and all(s == "sound" for _, _, s in shards)
    require(good == (is_whole and not remarks), "status of the manifest")


def hold_laws(engine, drive, choice, seen):
    hold_spares(engine, drive, seen)
    hold_loose(engine, drive, seen)
    hold_last_words(engine, drive, seen)
    if other := with_a_copy_in_garbage(choice, drive):
        hold_loose(engine, other, seen)
        hold_last_words(engine, other, seen)
    hold_last(engine, drive, choice, seen)
    hold_verdicts(engine, drive, choice, seen)
    hold_manifest(engine, drive, seen)
    hold_bytes_below(engine, drive, choice, seen)
    hold_copies(engine, drive, choice, seen)
    hold_resets(engine, drive, choice, seen)


def hold_laws_on(engine, seed, seen):
    """Holds the laws on a made-up disk, and those of --last and of sound disks on a disk of a node."""
    choice = random.Random(seed)
    made = choice.choice([Tended, Tended, Tended, History, History, Made])(choice)
    unreadable = made.make()
    drive = Drive(made.p, made.n, made.e, made.raw, unreadable, made.payloads.values() if isinstance(made, Tended) else ())
    try:
        hold_laws(engine, drive, choice, seen)
    except Broken as why:
        raise Broken(f"made-up disk {seed}: {why}") from why
    hold_laws_of_a_node(engine, seed, seen)


# The laws of compare

def is_safe(engine, before, after, resets, seen):
    text, good = engine.compare(before, after, resets)
    seen["safe" if good else "unsafe"] += 1
    generations = [choose(drive.image())["generation"] for drive in (before, after)]
    require(good == (text == "safe {} {}\n".format(*generations)), "safe", text)
    require(good or text.endswith("\nunsafe\n"), "unsafe", text)
    return good


def is_foreseen(old, new):
    """Whether a line of a manifest may be another one of these after what was safe."""
    *rest, last = old.split()
    *others, other = new.split()
    return is_risen(old, new) or rest == others and rest[0] == "runs" and int(other) < int(last)


def hold_nothing_lost(engine, before, after, resets, choice, law, seen):
    """What the first image held, a disk holds that has the pages of the second in all extents but 0 and the ones that are reset, and a
    superblock with its runs."""
    chosen = choose(after.image())
    for what, pointer in (("pointers of 0", lambda: 0), ("any pointers", lambda: choice.randrange(after.size + 1))):
        pointers = [pointer() if e in resets else w for e, w in enumerate(chosen["pointers"], 1)]
        later = rewritten(choice, spoilt_extents(choice, after, resets), pointers, chosen["retired"], chosen["runs"])
        if later is None:
            continue
        old, new = (engine.manifest(drive)[0] for drive in (before, later))
        lines, others = old.splitlines(), new.splitlines()
        require(others[1].startswith("runs lost 0 "), law, "a run is lost", new)
        require(len(lines) == len(others) and all(map(is_foreseen, lines, others)), law, what, resets, "\n" + old, new)
        crowded = frames_of(before)[1]
        require(is_held(held(before, crowded), held(later, crowded)), law, "payloads", what, resets)
        hold_shards(engine, before, later, law, seen)
        seen[f"{law}: {what}"] += 1
        seen[f"{law}: another manifest"] += old != new


def text_below(image, x, end):
    """For each page of an extent its bytes before this offset, or None where it can't be read."""
    for g in range(image.pages):
        begin = g * image.page
        if begin < end:
            text = image.text(x, begin, begin + image.page)
            yield text and text[:end - begin]


def hold_nothing_overwritten(before, after, resets, seen):
    old, new = choose(before.image()), choose(after.image())
    for x in range(1, before.extents):
        end = old["pointers"][x - 1]
        require(list(text_below(before.image(), x, end)) == list(text_below(after.image(), x, end)), "law 2: bytes of extent", x)
        if x not in resets and x not in old["retired"]:
            chunks, later = chunks_of(before, x, end), chunks_of(after, x, new["pointers"][x - 1])
            require(chunks <= later, "law 2: chunks of extent", x, chunks - later)
            seen["law 2: chunks"] += len(chunks)
            seen["law 2: more chunks"] += chunks != later


def hold_undo(engine, before, after, choice, seen):
    chosen = choose(before.image())
    undone = rewritten(choice, after, chosen["pointers"], chosen["retired"], chosen["runs"])
    if undone is not None and not frames_of(after)[1]:
        old, new = engine.manifest(before)[0], engine.manifest(undone)[0]
        require(are_risen(old, new), "law 4:\n", old, new)
        seen["law 4"] += 1
        seen["law 4: another manifest"] += old != new


def hold_unwritten(engine, drive, seen):
    """What wasn't written to is safe, but for doubts that can't be accepted."""
    *doubts, last = engine.compare(drive, drive, [])[0].splitlines()
    require(all(line.startswith("doubt ") for line in doubts), "law 6: another line", doubts)
    require(last.startswith("safe ") == (not doubts), "law 6", doubts, last)
    seen["law 6: doubts" if doubts else "law 6: safe"] += 1


def hold_compare_laws(engine, pair, choice, seen):
    before, after, resets, _ = pair
    hold_unwritten(engine, after, seen)
    if not is_safe(engine, before, after, resets, seen):
        return
    seen.update(f"safe after {kind}" for kind in pair.written)
    seen["safe, something was written"] += before.raw != after.raw
    hold_nothing_lost(engine, before, after, resets, choice, "law 1", seen)
    hold_nothing_overwritten(before, after, resets, seen)
    require(not any(c["extent"] in resets for _, c, _ in named_locators(after)), "law 3")
    hold_undo(engine, before, after, choice, seen)
    last = after.copy()
    written, extents = write_something(choice, last, choice.choice([0, 0, .1]), 1)
    later = choice.choice([resets, extents, sorted({*resets, *extents})])
    if is_safe(engine, after, last, later, seen):
        seen["law 5: something was written by both steps"] += before.raw != after.raw and after.raw != last.raw
        hold_nothing_lost(engine, before, last, later, choice, "law 5", seen)


def hold_compare_laws_on(engine, seed, seen):
    """Holds the laws on a made-up pair."""
    choice = random.Random(f"laws {seed}")
    try:
        hold_compare_laws(engine, made_pair(choice), choice, seen)
    except Broken as why:
        raise Broken(f"made-up pair {seed}: {why}") from why
