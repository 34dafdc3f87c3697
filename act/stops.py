"""What act/reclaim says when it stops, and of doubts: one table of each. The table of stops in docs/RECLAIMING.md is made from these by
dev/stops.py."""
from typing import NamedTuple


class Row(NamedTuple):
    """A stop: the exit status, what it means, and what to do."""
    status: int
    means: str
    do: str


AGAIN = "call this again with the same words"
START = "take what writes off the disk, let the node write a superblock, and call this with its generation and another --work"
RESTORE = ("write nothing more to {disk}. Restore {kept} to another drive (dd if={kept} of=DRIVE bs=1M conv=fsync), "
           "and call this with that drive, --last={counts}, --after={folder} and another --work")
BACK = "don't start the node, erase nothing, and call this with --back in place of --reset and --erase"
MERGE = "let the node merge some of its index runs, and call this with the generation of its superblock and another --work"
NO_MERGE = "the node's own merge would drop index runs that it can't see ({runs}): write the lost shards anew first"

# In the order in which they come.
STOPS = {
    # The words, the folder and the disk.
    "no-generation": Row(1, "the node could number no superblock above G + 1", "nothing can be reclaimed on this disk"),
    "busy": Row(3, "{disk} is mounted or in use", "unmount it, and end what uses it"),
    "locked": Row(3, "another act/reclaim, or an act/put of one, works here", "wait until it has ended, and " + AGAIN),
    "damaged": Row(3, "the file {why} of {folder} is gone or damaged",
                   "find it. Without it let the node go on from the superblock on the disk and write another, and begin with that"),
    "other words": Row(2, "{folder} has a walk with other words: {why}", "give those, or another --work"),
    "no walk": Row(2, "{folder} has no walk to go back from, or no reset that is done", "leave the option out, or give all words of the reset"),
    "sizes": Row(1, "the sizes aren't certain: {why}", "give --page, --pages and --extents, as the node's deployment has them"),
    "other sizes": Row(2, "the disk's records have the sizes {why}", "give these, or see whether it is the right disk"),
    "short": Row(1, "{disk} has {has} bytes, and the sizes give {bytes}",
                 "see whether it is the right disk, and whole; if the sizes are wrong, give others"),
    "longer": Row(1, "{disk} has {has} bytes, and the sizes that were found give {bytes}",
                  "see whether something is in front of the disk. If the sizes are right, give --page={page} --pages={pages} --extents={extents}"),
    "space": Row(3, "{folder} needs up to {need} bytes more, and has {free}", "name a folder with more space by --work"),
    # The first image.
    "first unreadable": Row(3, "{disk} can't be read, near byte {at}: the drive is failing",
                            "rescue it with ddrescue, restore that to a sound drive, and call this with the map and that drive"),
    "unfinished": Row(1, "{why} has a walk on this disk that isn't at its end", "go on with that one first: {call}"),
    "before": Row(1, "{disk} has lost what {kept} has: {lines}", RESTORE),
    # The listing and the plan.
    "doubts": Row(1, "nothing may be reclaimed while a doubt is open", "settle each doubt above"),
    "nothing": Row(1, "no extent gains anything now", "give the disk back"),
    "unlisted": Row(1, "extent {why} isn't one that may be reset now", "choose one that this lists without --reset"),
    "no-room": Row(1, "there is no room for a piece of {why} bytes", "reset an extent without copies first, or fewer, or others"),
    "no-room, 32 runs": Row(1, "there is no room for the shard map as one run of {why} bytes, and the disk has 32 index runs", "{merge}"),
    "no-page": Row(1, "extent 0 has no place for a superblock of {why} bytes beside the one that counts",
                   "{merge}. If it says so again, act/plan can't reclaim on this disk"),
    "plan": Row(1, "the plan isn't safe: {why}", "tell the makers of shardscrub, and keep {first}"),
    "no": Row(1, "you didn't type {why}", AGAIN + " if you want to go on"),
    # What is on the disk isn't the first image with writes of this walk.
    "unreadable": Row(3, "{disk} can't be read any more, near byte {at}: {kept} may have the only whole copy", RESTORE),
    "newer": Row(1, "something else wrote superblock {why}, or {disk} is another disk",
                 "don't write over it. If it is the right disk, " + START),
    "lost": Row(1, "bytes in use have changed on {disk}, first in extent {extent} at {at}; or it is another disk",
                "see whether it is the right disk. If it is, " + RESTORE),
    "changed": Row(1, "something has changed {disk} in extent {extent} at {at}, but no bytes in use; or it is another disk",
                   "see whether it is the right disk. If it is, " + START),
    "lost after": Row(1, "bytes in use by superblock {next} have changed on {disk}, first in extent {extent} at {at}", BACK),
    "changed after": Row(1, "something has changed {disk} in extent {extent} at {at}, beside superblock {next}, but no bytes in use",
                         "erase nothing; " + START),
    # The writes.
    "put": Row(3, "act/put made no writes: {why}", AGAIN),
    "failed": Row(3, "a write to {disk} failed: {why}", AGAIN + "; if it fails again, " + RESTORE),
    "stays": Row(3, "what is written to {disk} doesn't stay there", RESTORE),
    "judged": Row(1, "the disk isn't as it has to be after the reset: {why}", BACK),
    # The erase and the way back.
    "erase": Row(1, "{disk} has changed since the reset, beside the erase: {why}", "erase nothing more, and see in the node's log what wrote there"),
    "no erase": Row(3, "{disk} can't erase: {why}", "leave the extents as they are, or erase them by hand now: {by_hand}"),
    "erase begun": Row(1, "the erase has begun, so there is no way back", "call this with --erase"),
    "back begun": Row(1, "the way back has begun", "call this with --back in place of --reset and --erase"),
    "not back": Row(1, "without superblock {next} the disk hasn't what {first} has", RESTORE + ". Don't give the disk back"),
    "went back": Row(2, "the walk of {folder} went back", "name another --work"),
    # Anywhere.
    "refused": Row(2, "{why}", "mend the words"),
    "fault": Row(3, "{why}", "mend that, and " + AGAIN),
    "interrupted": Row(130, "interrupted", AGAIN),
}

# What is on the disk when it stops.
ON_DISK = {
    "nothing": "this walk has written nothing to {disk}",
    "begun": "writes of this walk may be on {disk}, only where nothing was in use; {last} counts, or {next}. "
             "Keep {folder}, and leave the node off",
    "reset": "superblock {next} counts, with the pointer 0 for {resets}",
    "erasing": "superblock {next} counts, with the pointer 0 for {resets}, which may be erased in part; nothing there is in use",
    "erased": "superblock {next} counts, with the pointer 0 for {resets}, and that is erased",
    "backing": "superblock {next} may be taken off in part; {last} counts, or {next}. Keep {folder}, and leave the node off",
    "back": "superblock {last} counts again; copies of this walk are left where nothing was in use",
}

# What each doubt means and what settles it. Behind the last three is the option that accepts it.
DOUBTS = {
    "no-superblock": "No superblock of these sizes is there: check the sizes. If they are right, nothing can be reclaimed.",
    "tie": "Two superblocks have the greatest generation: let the node write a newer one, and call this with that.",
    "superblock-lost": "A page that can't be read may have held a newer superblock: read it again, else nothing can be reclaimed.",
    "run-lost": "An index run can't be read: restore its pages, else nothing can be reclaimed.",
    "spare": "The only chunks of a lost payload would go: let the node name one in a new entry, or delete the shard; or have it copied:",
    "loose": "The only copies of a lost payload would go: keep what `shard --id` gives, and let the node write it anew; or have one copied:",
    "crowded": "No copy of a lost payload was looked for there: let the node write the lost shards anew; or give such copies up:",
}
ACCEPTABLE = "spare", "loose", "crowded"
LAST_GREATER = """Superblock {counts} is newer than G. If the log has it, or a walk was writing it, G is {counts}.
    If not, it may be left from an older format: don't start the node, which would take it for its own. Try without it on a copy:
        {zero}
    If `reclaimable --last={last}` prints no `doubt last` of the copy, and `manifest` what the node knows, make the same zeros on the disk."""
LAST_SMALLER = """Superblock {last} isn't on the disk, or the sizes are wrong. Nothing can be reclaimed; never take G from the disk.
    If the node still runs, it has all in memory: let it write a superblock, and don't restart it.
    If it doesn't run, don't start it: it would forget what it wrote last. Keep {first}, and take everything off by act/rescue."""
