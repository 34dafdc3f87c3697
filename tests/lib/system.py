"""Runs a program with something between it and the system: a library that is put before the C library, and that counts or refuses
allocations, lets reads fail, takes only some bytes of the output, or tells files to be of another kind; or `strace`, by which one sees
what its system calls may change.

`cc` makes a library. As the run ends, the library tells numbers that it counted: its source has a function `tell`, which writes them to a
file descriptor, and ENDING is put behind it.
"""
import os
import re
import shlex
import signal
import subprocess
import tempfile
import unittest
from functools import cache
from pathlib import Path
from typing import NamedTuple

from lib.program import TOP, need, program

# A run that takes longer will never end, even on a machine with much else to do. Then a signal of the system ends it.
SECONDS = 300
ENDING = r"""
#include <stdlib.h>
#include <sys/syscall.h>
#include <unistd.h>

static int is_told;

__attribute__((constructor)) static void limit(void) { alarm(SECONDS); }

__attribute__((destructor)) static void tell_once(void) {
    if (is_told) return;
    is_told = 1;
    tell(atoi(getenv("COUNTS")));
}

/* A program with threads ends by this call, which calls no destructors. */
void _exit(int status) {
    tell_once();
    syscall(SYS_exit_group, status);
    __builtin_unreachable();
}
"""


class Library(NamedTuple):
    """A library: its name, and its source without ENDING."""
    name: str
    source: str

    def made(self, folder):
        """Makes the library in this folder, and returns its path. Without a C compiler the test is skipped."""
        need("cc")
        text, library = Path(folder, f"{self.name}.c"), Path(folder, f"{self.name}.so")
        text.write_text(self.source + ENDING, encoding="utf-8")
        subprocess.run(["cc", "-shared", "-fPIC", "-O1", f"-DSECONDS={SECONDS}", "-o", library, text, "-ldl", "-pthread"], check=True)
        return library


@cache
def files():
    """Files for both outputs of a run and for its numbers. All runs use the same ones, since there are tens of thousands."""
    return [tempfile.TemporaryFile(buffering=0) for _ in range(3)]


def taken(file):
    """What is in the file, which is empty then."""
    size = file.seek(0, os.SEEK_CUR)
    text = os.pread(file.fileno(), size, 0)
    if size:
        file.seek(0)
        file.truncate()
    return text


def run_with(program, words, library, given, processors=None):
    """The status and both outputs of a run with these variables alone and on these processors, and the numbers of the library.
    There are none if the run took over five minutes or ended by a signal. After five minutes the status is None too."""
    out, error, counts = files()
    variables = {**given, "LD_PRELOAD": str(library), "COUNTS": str(counts.fileno())}
    limit = (lambda: os.sched_setaffinity(0, processors)) if processors else None
    done = subprocess.run([program, *words], stdin=subprocess.DEVNULL, stdout=out, stderr=error, env=variables,
                          pass_fds=[counts.fileno()], preexec_fn=limit, cwd=TOP)
    got, numbers = (done.returncode, taken(out), taken(error)), [int(number) for number in taken(counts).split()]
    return ((None, b"", b""), []) if done.returncode == -signal.SIGALRM else (got, numbers)


# Allocations

# The library refuses one allocation, by its number from 1 on, or that one and all later ones; or those of all threads except the
# first one, each after a tenth of a second; or one of those, by its number among them. It counts the allocations of one size, and the
# threads that are started, and how many of these haven't ended when the program first writes. A thread may linger once its work is done,
# so that a program which doesn't wait for it writes before it has ended. Then the thread that started it goes on later than it begins, so
# that the last one of some workers takes all that there is.
ALLOCATIONS = Library("allocations", r"""
#define _GNU_SOURCE
#include <dlfcn.h>
#include <errno.h>
#include <pthread.h>
#include <stdio.h>
#include <stdlib.h>
#include <sys/syscall.h>
#include <sys/types.h>
#include <unistd.h>

static void *(*real_malloc)(size_t);
static void *(*real_realloc)(void *, size_t);
static int (*real_create)(pthread_t *, const pthread_attr_t *, void *(*)(void *), void *);
static ssize_t (*real_write)(int, const void *, size_t);
static long met, refused, sized, threads, running, left = -1;
static size_t size_counted;
static int all_later, all_others, of_others;
static useconds_t lingers, waits;

__attribute__((constructor)) static void begin(void) {
    real_malloc = dlsym(RTLD_NEXT, "malloc");
    real_realloc = dlsym(RTLD_NEXT, "realloc");
    real_create = dlsym(RTLD_NEXT, "pthread_create");
    all_later = getenv("ALL_LATER") != NULL;
    all_others = getenv("ALL_OTHERS") != NULL;
    of_others = getenv("OF_OTHERS") != NULL;
    lingers = getenv("LINGERS") ? 20000 : 0;
    waits = lingers / 2;
    real_write = dlsym(RTLD_NEXT, "write");
    size_counted = atol(getenv("COUNTED"));
    refused = atol(getenv("REFUSED"));
}

static int is_refused(size_t size) {
    if (size == size_counted) __atomic_add_fetch(&sized, 1, __ATOMIC_SEQ_CST);
    if (refused == 0) return 0;
    if ((all_others || of_others) && syscall(SYS_gettid) == getpid()) return 0;
    if (all_others) {
        usleep(100000);
        __atomic_add_fetch(&met, 1, __ATOMIC_SEQ_CST);
        return 1;
    }
    long now = __atomic_add_fetch(&met, 1, __ATOMIC_SEQ_CST);
    return now == refused || (all_later && now > refused);
}

void *malloc(size_t size) {
    if (real_malloc == NULL) real_malloc = dlsym(RTLD_NEXT, "malloc");
    if (is_refused(size)) { errno = ENOMEM; return NULL; }
    return real_malloc(size);
}

void *realloc(void *old, size_t size) {
    if (is_refused(size)) { errno = ENOMEM; return NULL; }
    return real_realloc(old, size);
}

/* The work of a thread. */
struct work {
    void *(*run)(void *);
    void *with;
};

static void *worked(void *given) {
    struct work work = *(struct work *)given;
    free(given);
    void *result = work.run(work.with);
    usleep(lingers);
    __atomic_sub_fetch(&running, 1, __ATOMIC_SEQ_CST);
    return result;
}

int pthread_create(pthread_t *thread, const pthread_attr_t *how, void *(*run)(void *), void *with) {
    if (real_create == NULL) real_create = dlsym(RTLD_NEXT, "pthread_create");
    struct work *work = real_malloc(sizeof(struct work));
    if (work == NULL) return EAGAIN;
    *work = (struct work){run, with};
    __atomic_add_fetch(&threads, 1, __ATOMIC_SEQ_CST);
    __atomic_add_fetch(&running, 1, __ATOMIC_SEQ_CST);
    int status = real_create(thread, how, worked, work);
    if (status != 0) {
        __atomic_sub_fetch(&running, 1, __ATOMIC_SEQ_CST);
        free(work);
    }
    usleep(waits);
    return status;
}

static void see_running(void) {
    if (left < 0) left = __atomic_load_n(&running, __ATOMIC_SEQ_CST);
}

ssize_t write(int file, const void *from, size_t size) {
    if (file == 1 || file == 2) see_running();
    return real_write(file, from, size);
}

ssize_t __write(int file, const void *from, size_t size) { return write(file, from, size); }

static void tell(int file) {
    see_running();
    refused = 0;
    dprintf(file, "%ld %ld %ld %ld", met, sized, threads, left);
}
""")
# After so many runs in a row in which no allocation was refused there are no more.
UNMET = 3


class AllocationCounts(NamedTuple):
    """The counts of a run. `met`: allocations while one was to be refused, or refused ones if those of all other threads
    were. `sized`: allocations of the counted size. `threads`: threads that were started. `left`: those of them that hadn't ended at
    the first byte of the output or of the error stream."""
    met: int
    sized: int
    threads: int
    left: int


def run_counted(program, words, library, refused=0, counted=0, flags=(), processors=None):
    """The status and both outputs of a run on these processors, and its counts. The counts are None if the run took over
    five minutes or ended by a signal. After five minutes the status is None too."""
    given = dict(REFUSED=str(refused), COUNTED=str(counted), **dict.fromkeys(flags, "1"))
    got, numbers = run_with(program, words, library, given, processors)
    return got, AllocationCounts(*numbers) if numbers else None


def refusing_of_others(program, words, library):
    """Runs whose threads linger, each with one allocation refused of those of all threads but the first one: with the first, the second,
    and so on, until some runs in a row meet no refusal, since how many there are differs with what each thread takes. Yields what was
    refused, None if nothing was, the status and both outputs, and the counts."""
    refused, unmet = 0, 0
    while unmet < UNMET:
        refused += 1
        got, counts = run_counted(program, shlex.split(words), library, refused, flags=["OF_OTHERS", "LINGERS"])
        is_met = counts is not None and counts.met >= refused
        unmet = 0 if is_met else unmet + 1
        yield refused if is_met else None, got, counts


def refusing(program, words, library, refused, all_later=False, all_others=False):
    """The status and both outputs of a run, and `met` of its counts; 0 if there are no counts."""
    flags = ["ALL_LATER"] * all_later + ["ALL_OTHERS"] * all_others
    got, counts = run_counted(program, shlex.split(words), library, refused, flags=flags)
    return got, counts.met if counts else 0


# Reads that fail

# Some ranges of an image's bytes can't be read. A read fails if it begins in such a range; one that begins before it ends there,
# as the page cache of Linux does it. With `touched` a read that meets such a range at all fails as a whole, as some devices and
# file systems do it. If `times` are given, only so many reads fail. With `interrupted` a read fails as if a signal had interrupted it.
# A read gives `most` bytes at most. The program is told of `told` processors, whatever the machine has.
FAILING_READS = Library("failing-reads", r"""
#define _GNU_SOURCE
#include <dlfcn.h>
#include <errno.h>
#include <sched.h>
#include <stdio.h>
#include <stdlib.h>
#include <string.h>
#include <sys/stat.h>
#include <sys/types.h>
#include <unistd.h>

#define MOST 100000

static ssize_t (*real_pread)(int, void *, size_t, off_t);
static off_t begins[MOST], ends[MOST];
static int ranges, whole, told, fault = EIO;
static ino_t image;
static size_t page, most;
static long times;
static long failed_long, failed_short, threads;
static __thread int is_counted;

static long long given(const char *name, long long otherwise) {
    return getenv(name) ? atoll(getenv(name)) : otherwise;
}

__attribute__((constructor)) static void begin(void) {
    real_pread = dlsym(RTLD_NEXT, "pread");
    image = given("IMAGE", 0);
    page = given("PAGE", 0);
    whole = getenv("TOUCHED") != NULL;
    if (getenv("INTERRUPTED")) fault = EINTR;
    most = given("AT_MOST", 1L << 40);
    times = given("TIMES", 1L << 40);
    told = given("PROCESSORS", 0);
    char *text = getenv("FAILING");
    while (*text) {
        begins[ranges] = strtoll(text, &text, 10);
        ends[ranges++] = strtoll(text + 1, &text, 10);
        if (*text) text++;
    }
}

/* A mask of as many processors as are told. The call of the system gives the size of its own mask. */
int sched_getaffinity(pid_t process, size_t size, cpu_set_t *mask) {
    int (*real)(pid_t, size_t, cpu_set_t *) = dlsym(RTLD_NEXT, "sched_getaffinity");
    int got = real(process, size, mask);
    if (told == 0 || got < 0) return got;
    memset(mask, 0, size);
    for (int number = 0; number < told; number++) CPU_SET_S(number, size, mask);
    return got;
}

long sysconf(int name) {
    long (*real)(int) = dlsym(RTLD_NEXT, "sysconf");
    return told && (name == _SC_NPROCESSORS_ONLN || name == _SC_NPROCESSORS_CONF) ? told : real(name);
}

static ssize_t fail(size_t size) {
    __atomic_add_fetch(size > page ? &failed_long : &failed_short, 1, __ATOMIC_SEQ_CST);
    errno = fault;
    return -1;
}

ssize_t pread(int file, void *to, size_t size, off_t at) {
    struct stat about;
    if (real_pread == NULL) real_pread = dlsym(RTLD_NEXT, "pread");
    if (fstat(file, &about) != 0 || about.st_ino != image) return real_pread(file, to, size, at);
    if (!is_counted) __atomic_add_fetch(&threads, 1, __ATOMIC_SEQ_CST);
    is_counted = 1;
    size_t wanted = size;
    for (int number = 0; number < ranges; number++) {
        if (at >= ends[number] || at + (off_t)size <= begins[number]) continue;
        if (!whole && at < begins[number]) size = begins[number] - at;
        else if (__atomic_fetch_sub(&times, 1, __ATOMIC_SEQ_CST) > 0) return fail(wanted);
    }
    return real_pread(file, to, size < most ? size : most, at);
}

ssize_t pread64(int file, void *to, size_t size, off_t at) { return pread(file, to, size, at); }

static void tell(int file) { dprintf(file, "%ld %ld %ld", failed_long, failed_short, threads); }
""")


class ReadCounts(NamedTuple):
    """How many reads of more than a page failed, how many others did, and how many threads read the image."""
    failed_long: int
    failed_short: int
    threads: int


def run_failing(program, words, library, image, page, ranges, touched, processors=None, *, most=None, times=None, told=None,
                interrupted=False):
    """The status and both outputs of a run on these processors, and its counts; None in their place if it didn't end by itself."""
    given = {"IMAGE": os.stat(image).st_ino, "PAGE": page, "FAILING": ",".join(f"{begin}-{end}" for begin, end in ranges),
             "TOUCHED": "1" if touched else None, "INTERRUPTED": "1" if interrupted else None, "AT_MOST": most, "TIMES": times, "PROCESSORS": told}
    given = {name: str(value) for name, value in given.items() if value is not None}
    got, numbers = run_with(program, words, library, given, processors)
    return got, ReadCounts(*numbers) if numbers else None


# An output that takes only so many bytes

# Then a write answers 0, as no file of Linux does, or fails.
FULL_OUTPUT = Library("full-output", r"""
#define _GNU_SOURCE
#include <dlfcn.h>
#include <errno.h>
#include <stdio.h>
#include <stdlib.h>
#include <sys/types.h>

static ssize_t (*real_write)(int, const void *, size_t);
static size_t room;
static int fails;

__attribute__((constructor)) static void begin(void) {
    real_write = dlsym(RTLD_NEXT, "write");
    room = atoll(getenv("ROOM"));
    fails = getenv("FAILS") != NULL;
}

ssize_t write(int file, const void *from, size_t size) {
    if (file != 1) return real_write(file, from, size);
    if (size > room) size = room;
    if (size == 0 && fails) {
        errno = EIO;
        return -1;
    }
    room -= size;
    return size == 0 ? 0 : real_write(file, from, size);
}

ssize_t __write(int file, const void *from, size_t size) { return write(file, from, size); }

static void tell(int file) { dprintf(file, "%zu", room); }
""")


def run_full(program, words, library, room, fails):
    """The status and both outputs of a run whose output takes `room` bytes."""
    got, _ = run_with(program, words, library, {"ROOM": str(room)} | ({"FAILS": "1"} if fails else {}))
    return got


# Files of another kind

# Some files are told to be of another kind, such as block devices. What is read of them is theirs. As of a block device, their
# size is told as 0.
TOLD_KINDS = Library("told-kinds", r"""
#define _GNU_SOURCE
#include <dlfcn.h>
#include <fcntl.h>
#include <stdio.h>
#include <stdlib.h>
#include <sys/stat.h>
#include <sys/sysmacros.h>

#define MOST 8
/* The loop devices of Linux have this number. */
#define LOOPS 7

static unsigned long long files[MOST];
static int count;
static unsigned kind;
static long told;

__attribute__((constructor)) static void begin(void) {
    char *text = getenv("FILES");
    kind = strtol(getenv("KIND"), NULL, 8);
    while (*text && count < MOST) {
        files[count++] = strtoull(text, &text, 10);
        if (*text) text++;
    }
}

static int is_meant(int status, unsigned long long file) {
    if (status != 0) return 0;
    for (int number = 0; number < count; number++)
        if (files[number] == file) {
            __atomic_add_fetch(&told, 1, __ATOMIC_SEQ_CST);
            return 1;
        }
    return 0;
}

static int tell_stat(int status, struct stat *about) {
    if (!is_meant(status, about->st_ino)) return status;
    about->st_mode = (about->st_mode & ~S_IFMT) | kind;
    about->st_size = about->st_blocks = 0;
    about->st_rdev = makedev(LOOPS, 0);
    return status;
}

int stat(const char *path, struct stat *about) {
    int (*real)(const char *, struct stat *) = dlsym(RTLD_NEXT, "stat");
    return tell_stat(real(path, about), about);
}

int lstat(const char *path, struct stat *about) {
    int (*real)(const char *, struct stat *) = dlsym(RTLD_NEXT, "lstat");
    return tell_stat(real(path, about), about);
}

int fstat(int file, struct stat *about) {
    int (*real)(int, struct stat *) = dlsym(RTLD_NEXT, "fstat");
    return tell_stat(real(file, about), about);
}

int fstatat(int folder, const char *path, struct stat *about, int flags) {
    int (*real)(int, const char *, struct stat *, int) = dlsym(RTLD_NEXT, "fstatat");
    return tell_stat(real(folder, path, about, flags), about);
}

/* On 64 bits these have the same structure. */
int stat64(const char *path, struct stat64 *about) { return stat(path, (struct stat *)about); }
int lstat64(const char *path, struct stat64 *about) { return lstat(path, (struct stat *)about); }
int fstat64(int file, struct stat64 *about) { return fstat(file, (struct stat *)about); }
int fstatat64(int folder, const char *path, struct stat64 *about, int flags) {
    return fstatat(folder, path, (struct stat *)about, flags);
}

int statx(int folder, const char *path, int flags, unsigned mask, struct statx *about) {
    int (*real)(int, const char *, int, unsigned, struct statx *) = dlsym(RTLD_NEXT, "statx");
    int status = real(folder, path, flags, mask | STATX_INO, about);
    if (!is_meant(status, about->stx_ino)) return status;
    about->stx_mode = (about->stx_mode & ~S_IFMT) | kind;
    about->stx_size = about->stx_blocks = 0;
    about->stx_rdev_major = LOOPS;
    about->stx_rdev_minor = 0;
    return status;
}

static void tell(int file) { dprintf(file, "%ld", told); }
""")


def run_told(program, words, library, kind, *paths):
    """The status and both outputs of a run in which these files are told to be of this kind, and how often that was told."""
    inodes = ",".join(str(os.stat(path).st_ino) for path in paths)
    got, numbers = run_with(program, words, library, {"FILES": inodes, "KIND": f"{kind:o}"})
    return got, numbers[0] if numbers else 0


# System calls

# Calls that change nothing outside of the process, whatever their arguments: on its own memory, threads and signals, on the
# clock, and calls that read. changes_nothing_by has the calls whose arguments decide.
HARMLESS = set("""
    access arch_prctl brk clock_gettime clock_nanosleep close exit exit_group faccessat faccessat2 fstat futex getcpu getpid
    getrandom gettid lseek madvise mprotect mremap munmap nanosleep newfstatat poll pread64 read readlink readlinkat rseq
    rt_sigaction rt_sigprocmask rt_sigreturn restart_syscall sched_getaffinity sched_yield set_robust_list set_tid_address
    sigaltstack stat statx sysinfo uname
""".split())


@cache
def why_not():
    """Why no run can be traced here; None if runs can be traced."""
    with tempfile.NamedTemporaryFile() as probe:
        run = subprocess.run(["strace", "-f", "-o", probe.name, "true"], stdin=subprocess.DEVNULL, capture_output=True, timeout=SECONDS)
    return None if run.returncode == 0 else f"strace can't trace here: {run.stderr.decode(errors='replace').strip()[-200:]}"


def need_traces():
    """Skips the test that calls this if no run can be traced."""
    need("strace")
    if why_not() is not None:
        raise unittest.SkipTest(why_not())


def traced(room, *words, **more):
    """The answer of a run, and the calls of all its threads, each with its name, its arguments and its result.

    With -ff each thread has its own file, so no call of another thread cuts a line in two. File names are shown, buffers
    aren't.
    """
    given = {"stdin": subprocess.DEVNULL, "capture_output": True, "timeout": SECONDS, **more}
    with tempfile.TemporaryDirectory(dir=room) as folder:
        command = ["strace", "-ff", "-qq", "-s", "0", "-o", os.path.join(folder, "trace"), program(), *words]
        run = subprocess.run(command, **given)
        files = sorted(Path(folder).iterdir(), key=lambda path: int(path.suffix[1:]))
        lines = [line for path in files for line in path.read_text(errors="replace").splitlines()]
    calls = []
    for line in lines:
        if line.startswith(("+++ ", "--- ")):
            continue
        call = re.fullmatch(r"(\w+)\((.*)\) += (.*)", line)
        calls.append(call.groups() if call else ("unread", line, ""))
    return (run.returncode, run.stdout, run.stderr), calls


def changes_nothing_by(call):
    """Whether this call changes nothing outside of the process. An unknown call may change something."""
    name, arguments, _ = call
    words = set(re.findall(r"\w+", re.sub(r'"(?:[^"\\]|\\.)*"', "", arguments)))
    if name in ("open", "openat"):
        flags = {word for word in words if word.startswith("O_")}
        return "O_RDONLY" in flags and flags <= {"O_RDONLY", "O_CLOEXEC", "O_NOCTTY"}
    if name in ("write", "writev"):
        return arguments.startswith(("1, ", "2, "))
    if name == "mmap":
        return "PROT_WRITE" not in words or "MAP_PRIVATE" in words
    if name in ("clone", "clone3"):
        return "CLONE_THREAD" in words
    if name == "prlimit64":
        return re.fullmatch(r"0, RLIMIT_\w+, NULL, .*", arguments) is not None
    return name in HARMLESS


def suspects(calls):
    """The calls that may change something. The first execve is strace's own, which starts the program."""
    starts = [call for call in calls if call[0] == "execve"]
    return starts[1:] + [call for call in calls if call[0] != "execve" and not changes_nothing_by(call)]


def opened(calls):
    """The names of the files that were opened in the folder of the run. All files of the C library begin with a slash."""
    names = [re.findall(r'"((?:[^"\\]|\\.)*)"', given) for name, given, _ in calls if name in ("open", "openat")]
    return [name for quoted in names for name in quoted if not name.startswith("/")]


def state(folder):
    """The bytes of each file in the folder, and what the system knows of files and folder, except when they were last read."""
    paths = [folder, *sorted(Path(folder).iterdir())]
    stats = [os.stat(path) for path in paths]
    kept = [(x.st_mode, x.st_ino, x.st_nlink, x.st_uid, x.st_size, x.st_mtime_ns, x.st_ctime_ns) for x in stats]
    return list(zip(map(str, paths), kept, [b""] + [path.read_bytes() for path in paths[1:]]))
