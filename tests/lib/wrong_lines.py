"""Command lines that are wrong, as somebody types them, each with the message that is printed, by its text in dev/messages.py; and
runs whose answer has remarks beside it.

They run in a folder with `examples`, the program on the path as `shardscrub`, the script `script/shardscrub`, and what `make_files` makes.
"""
import os

from lib.program import TOP

ONE, SEVERAL = "examples/one-shard.img", "examples/several-findings.img"
SIZES = "--page 64 --pages 4 --extents 3"
ID = "0000000000000000000000000000000"
INVALID = "invalid value 'VALUE' for 'OPTION': "

WRONG = {
    "unrecognized subcommand 'WORD'": [
        f"shardscrub sumary {ONE}", f"shardscrub {ONE}", "shardscrub help sumary"],
    "unexpected argument 'WORD' found": [
        f"shardscrub {SIZES} summary {ONE}", f"shardscrub demo {ONE}", f"shardscrub summary -p 64 {ONE}", f"shardscrub sizes {SIZES} {ONE}",
        f"shardscrub sizes {ONE} 1:2", f"shardscrub superblocks --workers 2 {ONE}", f"shardscrub scan --last 1 {ONE}",
        f"shardscrub summary --workers -1 {ONE}", f"shardscrub locators --id {ID}1 {ONE}"],
    "unexpected value 'VALUE' for 'OPTION' found; no more were expected": ["shardscrub --version=4", f"shardscrub shards --partial=1 {ONE}"],
    "the following required arguments were not provided:": [
        f"shardscrub summary <{ONE}", f"shardscrub reclaimable {ONE}", f"shardscrub compare {SIZES} {ONE}", f"shardscrub index {ONE}",
        f"shardscrub shard {ONE}", f"shardscrub items {ONE}"],
    "the following arguments are given together or not at all:": [
        f"shardscrub summary --page 64 {ONE}", f"shardscrub items --pages 4 --extents 3 --extent 1 {ONE}"],
    "a value is required for 'OPTION' but none was supplied": [
        f"shardscrub summary --page --pages 4 --extents 3 {ONE}", f"shardscrub summary {ONE} --map"],
    "the argument 'OPTION' cannot be used multiple times": [
        f"shardscrub items --extent 1 --extent 2 {ONE}", f"shardscrub summary {SIZES} --page 64 {ONE}",
        f"shardscrub shards --partial --partial {ONE}"],
    "the argument '--run <EXTENT:OFFSET>' cannot be used with '--reset <EXTENT>'": [
        f"shardscrub manifest {SIZES} --run 2:0 --reset 1 {ONE}"],
    INVALID + "VALUE is not in 0..=MOST": [f"shardscrub summary --workers 65 {ONE}", f"shardscrub items --extent 4294967296 {ONE}"],
    INVALID + "number too large to fit in target type": [f"shardscrub summary --last 18446744073709551616 {ONE}"],
    INVALID + "invalid digit found in string": [
        f"shardscrub summary --page 4k --pages 4 --extents 3 {ONE}", f"shardscrub summary --page 0x40 --pages 4 --extents 3 {ONE}",
        f"shardscrub summary --page 64 --pages 65,536 --extents 3 {ONE}", f"shardscrub reclaimable {SIZES} --last 1.0 {ONE}",
        f"shardscrub items --extent 1 --pointer 41B {ONE}"],
    INVALID + "cannot parse integer from empty string": [f'shardscrub summary --workers "$WORKERS" {ONE}'],
    "invalid value 'LINE' for '--accept <LINE>': not a line of a doubt that can be accepted, without the word doubt": [
        "shardscrub reclaimable --page 64 --pages 8 --extents 5 --accept 'doubt tail 1 0 38' examples/tail.img",
        "shardscrub reclaimable --page 64 --pages 8 --extents 5 --accept tail 1 0 38 examples/tail.img",
        f"shardscrub reclaimable {SIZES} --accept tie examples/tie.img"],
    "a word is not UTF-8": ["shardscrub summary \"$(printf 'disk\\377.img')\""],
    "geometry refused: PageSize": [
        f"shardscrub summary --page 4 --pages 64 --extents 3 {ONE}", f"shardscrub locators --page 100 --pages 4 --extents 3 {ONE}"],
    "geometry refused: Pages": [f"shardscrub summary --page 64 --pages 0 --extents 3 {ONE}"],
    "geometry refused: Extents": [f"shardscrub summary --page 64 --pages 4 --extents 1 {ONE}"],
    "geometry refused: ExtentBytes": [f"shardscrub summary --page 4096 --pages 65536 --extents 2 {ONE}"],
    "geometry refused: TotalBytes": [f"shardscrub summary --page 4096 --pages 16384 --extents 65 {ONE}"],
    "sizes not found: run shardscrub sizes": [
        "shardscrub summary examples/no-superblock.img", "shardscrub scan text", "shardscrub summary examples/formatted-twice.img"],
    "sizes not certain: records were found, but bytes of the first 64 MiB can't be read; give --page, --pages and --extents (shardscrub sizes "
    "lists them)": ["shardscrub summary --map examples/rescued.map examples/rescued.img"],
    "no superblock record in the first 64 MiB": ["shardscrub sizes text", "shardscrub sizes empty"],
    "extent out of range": [
        f"shardscrub items --extent 3 {ONE}", f"shardscrub manifest {SIZES} --reset 0 {ONE}", f"shardscrub compare {SIZES} --reset 3 {ONE} {ONE}"],
    "shard refused: ID": [
        f"shardscrub shard --id 1 {ONE}", f"shardscrub shard --id 0x{ID}1 {ONE}",
        f"shardscrub shard --id 11111111-1111-1111-1111-111111111111 {ONE}"],
    "pointer out of range": [f"shardscrub items --extent 1 --pointer 257 {ONE}"],
    "run refused: WORD": [
        *(f"shardscrub shards --run {place} {ONE}" for place in ("2", "0:0", "3:0", "2:256", "a:b")),
        f"shardscrub shard --id {ID}1 --run 2,0 {ONE}", f"shardscrub manifest {SIZES} --run 2:0 --run 2 {ONE}"],
    "bad page refused: ARG": [
        *(f"shardscrub summary {ONE} {pair}" for pair in ("1", "1:9", "3:0", "1:2-3", "1:2,1:3", "a:b", "+1:2", "'1:1 1:2'")),
        f"shardscrub shards {SIZES} {ONE} 1:4"],
    "map cannot be opened: NAME": [f"shardscrub summary --map nothing {ONE}", f"shardscrub summary --map folder {ONE}"],
    "map refused: line K": [
        "shardscrub summary --map examples/rescued.img examples/rescued.map", f"shardscrub sizes --map empty {ONE}",
        f"shardscrub scan --map cut.map {ONE}"],
    "image cannot be opened: NAME": [
        "shardscrub summary nothing", "shardscrub summary folder", "shardscrub summary pipe", "shardscrub summary locked",
        f"shardscrub summary - <{ONE}", f"shardscrub summary 1:1 {ONE}"],
    "image too long": [
        f"shardscrub summary --page 64 --pages 4 --extents 2 {ONE}", "shardscrub summary longer.img",
        f"shardscrub reclaimable {SIZES} in-front.img"],
    "run not found: WORD": [
        f"shardscrub shards --run 1:0 {ONE}", f"shardscrub shard --id {ID}1 --run 2:0 --run 2:1 {ONE}",
        f"shardscrub manifest {SIZES} --run 2:41 {ONE}"],
    "no such shard": [f"shardscrub shard --id {ID}2 {ONE}"],
    "payload lost: NN": [f"shardscrub shard --id {ID}3 {SEVERAL}"],
    "output failed after N bytes": [f"shardscrub scan {ONE} >/dev/full"],
    "out of memory": ["(ulimit -v 6000; shardscrub scan --page 65536 --pages 1024 --extents 3 examples/one-shard.img)"],
    "`verdict wrong` and `superblocks 0`": [
        f"shardscrub summary --page 64 --pages 4 --extents 300 {ONE}", f"shardscrub summary --page 128 --pages 2 --extents 3 {ONE}"],
    "nothing at all": [f"shardscrub superblocks {SIZES} zeros"],
    "SHARDSCRUB_CPU is neither x86-64-v2 nor x86-64-v3: VALUE": [f"SHARDSCRUB_CPU=x86-64 script/shardscrub summary {ONE}"],
}

# Runs with remarks, in the order of the lines.
REMARKS = {
    "shardscrub shards examples/tie.img": ["tie"],
    "shardscrub manifest --page 64 --pages 8 --extents 4 examples/flipped-bit.img": ["superblock lost: PAGE"],
    f"shardscrub shards {SIZES} examples/no-superblock.img": ["no superblock", "superblock lost: PAGE"],
    "shardscrub shards examples/lost-run.img": ["run lost: K STATE", "a newer entry may be lost: ID"],
    f"shardscrub shard --id {ID}1 examples/lost-run.img": ["a newer entry may be lost"],
    f"shardscrub shards {SEVERAL} 3:1": ["payload lost: ID NN", "payload lost: ID NN"],
}


def make_files(room, program):
    """Makes the files that these command lines name."""
    for name, to in {"examples": TOP / "examples", "script": TOP, "bin/shardscrub": program}.items():
        (room / name).parent.mkdir(exist_ok=True)
        (room / name).symlink_to(to)
    (room / "folder").mkdir()
    os.mkfifo(room / "pipe")
    one = (TOP / ONE).read_bytes()
    for name, content in {"text": b"Read the manual.\n", "empty": b"", "zeros": bytes(768), "locked": one, "longer.img": one + b"\0",
                          "in-front.img": bytes(512) + one, "cut.map": b"# Mapfile.\n0x0 +\n0x0 0x1\n"}.items():
        (room / name).write_bytes(content)
    (room / "locked").chmod(0)
