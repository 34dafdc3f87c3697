"""The corpus: small disks that are made by hand. A row has a name, and a function that makes one disk after another. Each may come with
its unreadable pages, as EXTENT:PAGE, and with the words of further calls. tests/test_corpus.py makes all calls on each of them, beside
reference/shardscrub.py, and on the disks of EACH_PAGE with each page unreadable in turn; PAIRS has pairs of images for `compare`. What a row
shows is in its name and its disks; what is right is nowhere here.
"""
from lib.corpus import loose, pairs, reclaiming, runs, shards, superblocks
from lib.corpus.extents import EACH_PAGE, wrong_seals
from lib.corpus.rows import ROWS

PAIRS = pairs.PAIRS | loose.PAIRS
