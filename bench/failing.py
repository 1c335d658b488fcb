"""Runs of a program in which one allocation, or one call of the system, fails; and a table of how they ended.

A library is put before the C library (LD_PRELOAD). It stands in this file and is compiled into the current folder.
"""
import collections
import os
import pathlib
import subprocess

SECONDS = 20  # how long a run may take
ENOMEM, FAULT_8, EIO = 'error ENOMEM 12', 'fault 8 OutOfMemory', 'error EIO 5'
MOST_FAULTS = 100_000  # of one sweep

# Counts what the program asks for, and lets the call FAULT_AT of the kind FAULT_KIND fail: an allocation (memory); one that is
# as large as a sector of the cache, and all of these after it (cache); a call on the image (call), and all after it (lasting);
# a read or write of the image, which moves one byte (short); a read of the standard input (input); a write of the standard
# output, which takes nothing (output). With FAULT_BYTES each of the last two moves one byte. Before the call FAULT_AT on the
# image the program stands still where the kind is pause: then none fails. FAULT_REPORT gets the counts.
LIBRARY = r'''
#define _GNU_SOURCE
#include <errno.h>
#include <fcntl.h>
#include <signal.h>
#include <stdio.h>
#include <stdlib.h>
#include <string.h>
#include <sys/stat.h>
#include <sys/syscall.h>
#include <unistd.h>

enum { MEMORY, CACHE, CALL, LASTING, SHORT, INPUT, OUTPUT, PAUSE, KINDS };
enum { CACHED_SIZE = 512 + 24 };
static const char *const names[KINDS] = { "memory", "cache", "call", "lasting", "short", "input", "output", "pause" };
static long counts[KINDS], wanted[KINDS];
static int bytewise;
void *__libc_malloc(size_t);
void *__libc_realloc(void *, size_t);

__attribute__((constructor)) static void begin(void) {
    const char *kind = getenv("FAULT_KIND"), *at = getenv("FAULT_AT");
    bytewise = getenv("FAULT_BYTES") != NULL;
    for (int i = 0; i < KINDS; i++) {
        counts[i] = 0;
        if (kind && at && strcmp(kind, names[i]) == 0) wanted[i] = atol(at);
    }
}

__attribute__((destructor)) static void report(void) {
    const char *path = getenv("FAULT_REPORT");
    char text[200];
    if (!path) return;
    int length = 0;
    for (int i = 0; i < KINDS; i++) length += snprintf(text + length, sizeof text - length, "%ld ", counts[i]);
    int file = syscall(SYS_open, path, O_WRONLY | O_CREAT | O_TRUNC, 0600);
    if (syscall(SYS_write, file, text, length) != length) _exit(99);
    syscall(SYS_close, file);
}

static int fails(int kind) {
    long count = ++counts[kind];
    return count == wanted[kind] || ((kind == LASTING || kind == CACHE) && wanted[kind] && count > wanted[kind]);
}

/* The image is all that has another descriptor than the three standard ones. */
static int image_fails(int file) {
    if (file < 3) return 0;
    if (fails(PAUSE)) raise(SIGSTOP);
    int once = fails(CALL), lasting = fails(LASTING);
    if (!once && !lasting) return 0;
    errno = EIO;
    return 1;
}

static size_t image_length(int file, size_t length) {
    return file > 2 && length > 1 && fails(SHORT) ? 1 : length;
}

void *malloc(size_t size) {
    int refused = fails(MEMORY), uncached = size == CACHED_SIZE && fails(CACHE);
    if (!refused && !uncached) return __libc_malloc(size);
    errno = ENOMEM;
    return NULL;
}

void *realloc(void *old, size_t size) {
    if (!fails(MEMORY)) return __libc_realloc(old, size);
    errno = ENOMEM;
    return NULL;
}

ssize_t read(int file, void *to, size_t length) {
    if (image_fails(file)) return -1;
    if (file == 0 && fails(INPUT)) { errno = EIO; return -1; }
    if (file == 0 && bytewise && length > 1) length = 1;
    return syscall(SYS_read, file, to, image_length(file, length));
}

ssize_t write(int file, const void *from, size_t length) {
    if (image_fails(file)) return -1;
    if (file == 1 && fails(OUTPUT)) return 0;
    if (file == 1 && bytewise && length > 1) length = 1;
    return syscall(SYS_write, file, from, image_length(file, length));
}
ssize_t __write(int file, const void *from, size_t length) { return write(file, from, length); }

ssize_t pread64(int file, void *to, size_t length, off_t at) {
    return image_fails(file) ? -1 : syscall(SYS_pread64, file, to, image_length(file, length), at);
}
ssize_t pread(int file, void *to, size_t length, off_t at) { return pread64(file, to, length, at); }

ssize_t pwrite64(int file, const void *from, size_t length, off_t at) {
    return image_fails(file) ? -1 : syscall(SYS_pwrite64, file, from, image_length(file, length), at);
}
ssize_t pwrite(int file, const void *from, size_t length, off_t at) { return pwrite64(file, from, length, at); }
int fsync(int file) { return image_fails(file) ? -1 : syscall(SYS_fsync, file); }
int fdatasync(int file) { return image_fails(file) ? -1 : syscall(SYS_fdatasync, file); }
int ftruncate(int file, off_t length) { return image_fails(file) ? -1 : syscall(SYS_ftruncate, file, length); }
int flock(int file, int how) { return image_fails(file) ? -1 : syscall(SYS_flock, file, how); }
off_t lseek(int file, off_t to, int from) { return image_fails(file) ? -1 : syscall(SYS_lseek, file, to, from); }

int statx(int file, const char *restrict path, int flags, unsigned mask, struct statx *restrict to) {
    return image_fails(file) ? -1 : syscall(SYS_statx, file, path, flags, mask, to);
}
'''
KINDS = ['memory', 'cache', 'call', 'lasting', 'short', 'input', 'output', 'pause']

Outcome = collections.namedtuple('Outcome', 'replies status error')


class Wrong(Exception):
    """A case ended as it may not."""


def demand(right, told):
    if not right:
        raise Wrong(told)


class Table:
    """How many cases of each kind ended in which way."""

    def __init__(self):
        self.ways = collections.defaultdict(collections.Counter)
        self.wrong = []

    def case(self, kind, told, judge):
        """Counts one case: `judge` answers in which way it ended, or finds it wrong."""
        try:
            way = judge()
        except Wrong as wrong:
            way = 'WRONG'
            self.wrong.append(f'{kind}, {told}: {wrong}')
        self.ways[kind][way] += 1

    def text(self):
        yield '| Kind | Cases | How they ended |'
        yield '|---|---|---|'
        for kind, ways in self.ways.items():
            told = ', '.join(f'{way} {count:,}' for way, count in sorted(ways.items(), key=lambda pair: -pair[1]))
            yield f'| {kind} | {sum(ways.values()):,} | {told} |'


def build_library():
    pathlib.Path('faults.c').write_text(LIBRARY)
    subprocess.run(['cc', '-O1', '-shared', '-fPIC', '-o', 'faults.so', 'faults.c'], check=True)


def environment(fault, bytewise):
    words = dict(os.environ, LD_PRELOAD='./faults.so', FAULT_REPORT='report')
    if fault:
        words['FAULT_KIND'], words['FAULT_AT'] = fault[0], str(fault[1])
    if bytewise:
        words['FAULT_BYTES'] = 'yes'
    return words


def run_program(program, words, script='', fault=None, bytewise=False, **streams):
    """Runs a program, with the fault (a kind and a number), and answers what it wrote and its status."""
    if 'stdin' not in streams:
        streams['input'] = script.encode('latin-1')
    if 'stdout' not in streams:
        streams['stdout'] = subprocess.PIPE
    pathlib.Path('report').unlink(missing_ok=True)
    try:
        ended = subprocess.run([program, *words], env=environment(fault, bytewise), stderr=subprocess.PIPE, timeout=SECONDS,
                               **streams)
    except subprocess.TimeoutExpired:
        return Outcome([], f'none within {SECONDS} seconds', '')
    replies = (ended.stdout or b'').decode('latin-1')
    return Outcome(replies.split('\n')[:-1], ended.returncode, ended.stderr.decode('latin-1').rstrip('\n'))


def counted(kind):
    """How many calls of this kind the last run made: none is known of a run that crashed."""
    report = pathlib.Path('report')
    return int(report.read_text().split()[KINDS.index(kind)]) if report.exists() else None


def happened(fault):
    """Whether the last run came as far as the fault. A run that crashed has told nothing."""
    count = counted(fault[0])
    return count is None or count >= fault[1]


def faults(kind):
    return ((kind, number) for number in range(1, MOST_FAULTS))


def told(outcome):
    return f'{outcome.replies[-3:]} status {outcome.status} {outcome.error!r}'
