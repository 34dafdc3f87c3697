"""Listings of worked disks, line by line: of nine locators, and what is said of superblocks beside the lines. What is right was written by
hand, from docs/REPORT.md; all other disks are in the corpus.
"""
from lib import worked
from lib.corpus.superblocks import REMARKED
from lib.disks import digest, shard
from test_corpus import CorpusCase
from test_system import answer

S1 = shard(1).hex()
U1, U2 = ("-".join(digit * size for size in (8, 4, 4, 4, 12)) for digit in "12")
ABC, ZERO = digest(b"abc").hex(), "0" * 64
# What is said of the superblocks of each disk of REMARKED.
REMARKS = [[], [], [], [], ["superblock lost: 5"], ["superblock lost: 2", "superblock lost: 7"], ["superblock lost: 4"], ["superblock lost: 3"],
           ["superblock lost: 4", "superblock lost: 5"], ["tie"],
           ["superblock lost: 3", "superblock lost: 6", "superblock lost: 7", "tie"]]

# Nine locators, no two of which have the same status: a command and its lines.
NINE = [
    ("locators", f"run 0 3 0 597 {U2} sound\n"
     f"shard {S1} 4 0 3 {U1} out_of_range\n"
     f"spare 1 0 3 {U1} 1\n"
     f"shard {S1} 1 600 3 {U1} past_pointer\n"
     f"spare 1 0 3 {U1} 1\n"
     f"shard {S1} 1 300 3 {U1} unreadable\n"
     f"spare 1 0 3 {U1} 1\n"
     f"shard {S1} 1 41 3 {U1} no_frame\n"
     f"spare 1 0 3 {U1} 1\n"
     f"shard {S1} 1 0 3 {U2} wrong_uuid\n"
     f"spare 1 0 3 {U1} 1\n"
     f"shard {S1} 1 0 4 {U1} wrong_length\n"
     f"shard {S1} 1 0 3 {U1} wrong_digest\n"
     f"shard {S1} 2 256 3 {U1} hidden\n"
     f"shard {S1} 1 0 3 {U1} sound\n"),
    ("manifest", "retired\n"
     "runs lost 0 hidden 0\n"
     f"shard {S1} 00 3 {ABC} out_of_range 4 0 {U1} spare\n"
     f"shard {S1} 01 3 {ABC} past_pointer 1 600 {U1} spare\n"
     f"shard {S1} 02 3 {ABC} unreadable 1 300 {U1} spare\n"
     f"shard {S1} 03 3 {ABC} no_frame 1 41 {U1} spare\n"
     f"shard {S1} 04 3 {ABC} wrong_uuid 1 0 {U2} spare\n"
     f"shard {S1} 05 4 {ABC} wrong_length 1 0 {U1} none\n"
     f"shard {S1} 06 3 {ZERO} wrong_digest 1 0 {U1} none\n"
     f"shard {S1} 07 3 {ABC} hidden 2 256 {U1}\n"
     f"shard {S1} 08 3 {ABC} sound plain\n"
     "total 1 9\n"),
]


class Listings(CorpusCase):
    def test_nine_locators_have_nine_statuses(self):
        """They are listed in the order of the entry, after that of the run."""
        _, image, bad, _ = self.put(worked.nine_locators())
        for command, lines in NINE:
            for workers in "13":
                found = answer(command, "--workers", workers, *image, *bad)
                self.same(f"{command} by {workers} workers", found, (1, lines.encode(), b""))

    def test_remarks_on_superblocks(self):
        """`manifest` makes them, with resets, too, and so do `shard` and `shards`. What they print is that of the superblock that counts,
        and so it is the same as without what is remarked."""
        for made, remarks in zip(REMARKED, REMARKS, strict=True):
            _, image, bad, _ = self.put(made)
            error = "".join(f"shardscrub: {remark}\n" for remark in remarks).encode()
            for words, status, end in ((["manifest"], bool(remarks), "sound plain"), (["manifest", "--reset=1"], 1, f"past_pointer 1 0 {U1} none")):
                lines = f"retired\nruns lost 0 hidden 0\nshard {S1} 00 3 {ABC} {end}\ntotal 1 1\n".encode()
                self.same(" ".join([*words, *bad]), answer(*words, *image, *bad), (int(status), lines, error))
            self.same("shard", answer("shard", "--id", S1, *image, *bad), (int(bool(remarks)), b"abc", error))
            status, _, said = answer("shards", *image, *bad)
            self.same("shards", (status, said), (int(bool(remarks)), error))
