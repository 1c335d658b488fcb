"""Microseconds of single calls: on the mount, on one whose server has fixed replies, on one of fuse2fs, and in a directory.

All four are mounted at once, and take turns with each of several rounds, so that whatever else the machine does meets all of them; what is
told is the median of the rounds. Behind the table comes which rows miss what is wanted of them.
"""
import contextlib
import itertools
import os
import pathlib
import shutil
import statistics
import subprocess
import time

from mounts import TOP, Mounted

FIXED_REPLIES = pathlib.Path(__file__).resolve().parent / 'fixed_replies.c'
OURS, BARE, OTHER, LOCAL = 'inofs', 'the protocol alone', 'fuse2fs', 'local'
ROUNDS, CLONES = 9, 3
BLOCK = bytes(range(256)) * 512
OTHERS, LATER = memoryview(os.urandom(4 * len(BLOCK))), itertools.count()  # of which each write takes others
WORKED_ON, FEW, MANY = 40, 300, 500  # names
OF_GIT = 200  # inodes that git takes for itself, and what else is there

# How many times what another column has a row may be at most, where something is wanted.
LOOK, SERVED, CHANGED = {LOCAL: 2}, {OTHER: 1, BARE: 1.5}, {OTHER: 1}
ROWS = {
    'stat': LOOK, 'absent name': LOOK, 'open and close': SERVED, 'create': CHANGED, 'rename': CHANGED, 'unlink': CHANGED,
    f'readdir of {FEW} names': SERVED, f'`ls -l` of {MANY} names, not the first time': {LOCAL: 2.2},
    f'`ls -l` of {FEW} names and a new one': {BARE: 2},
    'read of 4 KiB': SERVED, 'read of 128 KiB': SERVED, 'open, read of 128 KiB, close': SERVED,
    'write of 4 KiB': CHANGED, 'write of 128 KiB': {}, 'write of 4 KiB and fsync': {},
    '`git clone`, milliseconds': CHANGED, '`git status` there, milliseconds': CHANGED,
}


# ---- what is timed

def taken(work):
    """Microseconds of some work."""
    start = time.perf_counter_ns()
    work()
    return (time.perf_counter_ns() - start) / 1000


def each(count, call):
    """Microseconds of a call with one of so many numbers."""
    def work():
        for number in range(count):
            call(number)
    return taken(work) / count


def make(path):
    os.close(os.open(path, os.O_WRONLY | os.O_CREAT | os.O_EXCL, 0o644))


def read_anew(path):
    file = os.open(path, os.O_RDONLY)
    os.pread(file, len(BLOCK), 0)
    os.close(file)


def moving(file, size, call):
    """Reads or writes so much at places that follow each other within 1 MiB, past the kernel's pages of what was read."""
    def move(number):
        place = number * size % (1 << 20)
        if place == 0:
            os.posix_fadvise(file, 0, 0, os.POSIX_FADV_DONTNEED)
        call(file, size, place)
    return move


def write(file, size, place):
    """Writes other bytes than are there: what a sector has already needn't be written to an image."""
    start = 64 * next(LATER) % (len(OTHERS) - size)
    os.pwrite(file, OTHERS[start:start + size], place)


def lookups(root):
    place, absent = root / 'file', root / 'none'
    yield each(400, lambda _: os.stat(place))
    yield each(400, lambda _: os.access(absent, os.F_OK))
    yield each(200, lambda _: os.close(os.open(place, os.O_RDONLY)))


def names(root):
    folder = root / 'work'
    yield each(WORKED_ON, lambda number: make(folder / f'n{number}'))
    yield each(WORKED_ON, lambda number: os.rename(folder / f'n{number}', folder / f'm{number}'))
    yield each(WORKED_ON, lambda number: os.unlink(folder / f'm{number}'))


def list_long(folder):
    subprocess.run(['ls', '-l', folder], stdout=subprocess.DEVNULL, check=True)


def list_with_a_new_one(folder, number):
    """The kernel keeps no listing of a directory in which a name was made."""
    new = folder / f'm{number}'
    make(new)
    try:
        return taken(lambda: list_long(folder))
    finally:
        os.unlink(new)


def listings(root):
    yield each(10, lambda _: os.listdir(root / 'few'))
    list_long(root / 'many')
    yield taken(lambda: list_long(root / 'many'))
    yield statistics.mean(list_with_a_new_one(root / 'few', number) for number in range(5))


def moves(root):
    file = os.open(root / 'file', os.O_RDWR)
    yield each(256, moving(file, 4096, os.pread))
    yield each(16, moving(file, len(BLOCK), os.pread))
    yield each(16, lambda _: read_anew(root / 'file'))
    yield each(64, moving(file, 4096, write))
    yield each(8, moving(file, len(BLOCK), write))
    os.fsync(file)  # what was written before isn't that call's
    yield each(5, lambda number: (write(file, 4096, number * 4096), os.fsync(file)))
    os.close(file)


def prepare(root):
    """A file of 1 MiB, and directories with so many names."""
    file = os.open(root / 'file', os.O_RDWR | os.O_CREAT, 0o644)
    for number in range(8):
        os.pwrite(file, BLOCK, number * len(BLOCK))
    os.close(file)
    for folder, count in (('work', 0), ('few', FEW), ('many', MANY)):
        (root / folder).mkdir()
        for number in range(count):
            make(root / folder / f'n{number}')


def clone(root):
    """A clone of this repository without its history, whoever owns that."""
    (root / '.gitconfig').write_text('[safe]\n\tdirectory = *\n')
    environment = {'PATH': os.environ['PATH'], 'HOME': str(root), 'GIT_CONFIG_NOSYSTEM': '1'}
    git = lambda *words: subprocess.run(['git', *words], env=environment, stdout=subprocess.DEVNULL, check=True)
    yield taken(lambda: git('clone', '-q', '--depth', '1', f'file://{TOP}', root / 'clone')) / 1000
    yield taken(lambda: git('-C', root / 'clone', 'status', '--short')) / 1000
    shutil.rmtree(root / 'clone')


# ---- on what

@contextlib.contextmanager
def mounted_image(mounted):
    mounted.fresh()
    mounted.image.touch()
    mounted.begin()
    try:
        yield mounted.mount
    finally:
        mounted.end()


@contextlib.contextmanager
def mounted_by_fuse2fs(folder, layout):
    """An image of as many bytes and inodes, with what fuse2fs has as its defaults."""
    image, place = folder / 'ext4', folder / 'fuse2fs'
    place.mkdir()
    subprocess.run(['mke2fs', '-q', '-t', 'ext4', '-N', str(layout.inodes), image, layout.size], check=True, stdout=subprocess.DEVNULL)
    subprocess.run(['fuse2fs', image, place], check=True)
    try:
        yield place
    finally:
        subprocess.run(['umount', place], check=True)


def with_fixed_replies(folder, words):
    """A mount whose server has fixed replies, on the terms that these words of its name."""
    program, shell = folder / 'fixed_replies', folder / 'fixed_replies.sh'
    subprocess.run(['cc', '-O2', '-o', program, FIXED_REPLIES], check=True)
    shell.write_text(f'#!/bin/sh\nexec {program} {words} "$@"\n')
    shell.chmod(0o755)
    (folder / 'fixed').mkdir()
    return mounted_image(Mounted(folder / 'fixed', shell, layouts=[2]))


def servers(mounted, words):
    """Name of a column, and what mounts it; what a column needs and isn't here is said."""
    yield OURS, mounted_image(mounted)
    if shutil.which('cc'):
        yield BARE, with_fixed_replies(mounted.folder, words)
    else:
        print(f'{BARE}: not tried, cc is not here')
    if shutil.which('fuse2fs') and shutil.which('mke2fs'):
        yield OTHER, mounted_by_fuse2fs(mounted.folder, mounted.layout())
    else:
        print(f'{OTHER}: not tried, it is not here')
    yield LOCAL, contextlib.nullcontext(mounted.local)


def why_no_clone(mounted):
    """Why nothing can be cloned onto the image, if so."""
    if not shutil.which('git') or not (TOP / '.git').exists():
        return 'there is no history here, or no git'
    listed = subprocess.run(['git', '-c', 'safe.directory=*', '-C', TOP, 'ls-files'], check=True, stdout=subprocess.PIPE, text=True).stdout
    names = {parent for name in listed.split() for parent in (name, *map(str, pathlib.Path(name).parents))}
    if len(names) + OF_GIT > mounted.layout().inodes:
        return 'the image has too few inodes for this repository'
    return None


def measured(columns, rounds, *works):
    """The figures of each column, row by row: the columns take turns with each of the works."""
    figures = {name: [] for name in columns}
    for _ in range(rounds):
        for name in figures:
            figures[name].append([])
        for work in works:
            for name, root in columns.items():
                figures[name][-1].extend(work(root))
    return {name: [statistics.median(row) for row in zip(*of_rounds)] for name, of_rounds in figures.items()}


# ---- the table

def told(figure):
    return '-' if figure is None else f'{figure:,.1f}' if figure < 100 else f'{figure:,.0f}'


def print_table(columns):
    print('| Microseconds |', ' | '.join(columns), '|\n|---|' + '---|' * len(columns))
    for row in ROWS:
        print(f'| {row} |', ' | '.join(told(column.get(row)) for column in columns.values()), '|', flush=True)


def print_missed(columns):
    for row, wanted in ROWS.items():
        for name, times in wanted.items():
            ours, theirs = columns[OURS].get(row), columns.get(name, {}).get(row)
            if ours is not None and theirs is not None and ours > times * theirs:
                print(f'{row}: {ours / theirs:.1f} times {name}, wanted are at most {times}')


def figures(mounted, words):
    """Prints a table of them, of large images. The words are those of the server with fixed replies."""
    rows, mounted.large = list(ROWS), True
    with contextlib.ExitStack() as mounts:
        columns = {name: mounts.enter_context(server) for name, server in servers(mounted, words)}
        cloned = {}
        why = why_no_clone(mounted)
        if why is None:
            cloned = measured({name: root for name, root in columns.items() if name != BARE}, CLONES, clone)
        else:
            print(f'`git clone`: not tried, {why}')
        for root in columns.values():
            prepare(root)
        single = measured(columns, ROUNDS, lookups, names, listings, moves)
        found = {name: dict(zip(rows, [*single[name], *cloned.get(name, [])])) for name in columns}
    print_table(found)
    print_missed(found)
