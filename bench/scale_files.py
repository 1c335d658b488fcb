"""The rows of bench/scale that make, change, read and remove files by single calls."""
import os
import random
import time

from scale_places import command

FOLDERS, FILES_IN_ONE = 500, 100
NAMES = 10_000
# So far reach the direct, indirect and double indirect blocks of a file (docs/FORMAT.md): 500 MB are 60 files of 8 MiB.
LONG_FILES, LONG = 60, 8 << 20
STEP = 1 << 20  # bytes between two syncs
SHOWN = 3
SOME = random.Random(1).randbytes(1 << 20)
SIZES = [('64M', 8_192), ('512M', 32_768), ('2G', 131_072), ('8G', 1_048_576)]


# ---- many files

def content(number):
    """Of a file, up to 5,000 bytes, by its number."""
    start = number * 7_919 % (len(SOME) - 5_000)
    return b'%d ' % number + SOME[start:start + number * 31 % 4_990]


def changed(number):
    """What a change of one of five kinds makes of it; two kinds leave it as it is."""
    before, kind = content(number), number % 5
    middle = len(before) // 2
    return {0: before + SOME[:700], 1: before[:middle] + b'changed' + before[middle + 7:], 2: before[:middle]}.get(kind, before)


def change(path, number):
    before, kind = content(number), number % 5
    if kind > 2:
        return
    file = os.open(path, os.O_WRONLY)
    try:
        if kind == 2:
            os.ftruncate(file, len(before) // 2)
        elif kind == 1:
            os.pwrite(file, b'changed', len(before) // 2)
        else:
            os.pwrite(file, SOME[:700], len(before))
    finally:
        os.close(file)


def write_file(path, text):
    file = os.open(path, os.O_WRONLY | os.O_CREAT | os.O_EXCL, 0o644)
    try:
        os.write(file, text)
    finally:
        os.close(file)


def read_file(path):
    with open(path, 'rb', 0) as file:
        return file.read()


def compare_all(turn, title, paths, wanted):
    """Compares the content of each file with what is wanted of its number."""
    wrong = [path for number, path in paths if read_file(path) != wanted(number)]
    turn.demand(not wrong, f'{title}: other bytes in {len(wrong)} of {len(paths)} files, {wrong[:SHOWN]}')


def found_by_find(root, kind):
    return len(command('find', root, '-type', kind).splitlines())


def files(turn):
    turn.start()
    folders = [f'{turn.root}/d{number}' for number in range(turn.part(FOLDERS))]
    paths = list(enumerate(f'{folder}/f{number}' for folder in folders for number in range(FILES_IN_ONE)))
    with turn.timed('made'):
        for folder in folders:
            os.mkdir(folder)
        for number, path in paths:
            write_file(path, content(number))
    with turn.timed('stat of each'):
        sizes = [os.stat(path).st_size for _, path in paths]
    turn.same('sizes', sizes, [len(content(number)) for number, _ in paths])
    with turn.timed('find'):
        turn.same('found by find', found_by_find(turn.root, 'f'), len(paths))
    with turn.timed('three of five changed'):
        for number, path in paths:
            change(path, number)
    with turn.timed('read'):
        compare_all(turn, 'read', paths, changed)
    turn.again()
    with turn.timed('stat of each after a mount'):
        sizes = [os.stat(path).st_size for _, path in paths]
    turn.same('sizes after a mount', sizes, [len(changed(number)) for number, _ in paths])
    with turn.timed('read after a mount'):
        compare_all(turn, 'read after a mount', paths, changed)
    remove_files(turn, folders, paths)


def remove_files(turn, folders, paths):
    """Every other file, and then all."""
    with turn.timed('every other removed'):
        for _, path in paths[::2]:
            os.unlink(path)
    turn.again()
    turn.same('found once every other is removed', found_by_find(turn.root, 'f'), len(paths) // 2)
    compare_all(turn, 'read once every other is removed', paths[1::2], changed)
    with turn.timed('the others removed by rm -r'):
        command('rm', '-r', *folders)
    turn.same('left once all are removed', os.listdir(turn.root), [])
    turn.end()


# ---- one directory

def names(turn):
    turn.start()
    folder = turn.root / 'many'
    folder.mkdir()
    wanted = [f'name {number:05}' for number in range(turn.part(NAMES))]
    with turn.timed('made'):
        for number, name in enumerate(wanted):
            write_file(f'{folder}/{name}', b'%d' % number)
    with turn.timed('listed'):
        turn.same('listed', sorted(os.listdir(folder)), wanted)
    with turn.timed('ls -l'):
        turn.same('lines of ls -l', len(command('ls', '-l', folder).splitlines()), len(wanted) + 1)
    with turn.timed('every tenth renamed'):
        for name in wanted[::10]:
            os.rename(f'{folder}/{name}', f'{folder}/other {name}')
    turn.again()
    numbers = {f'other {name}' if number % 10 == 0 else name: number for number, name in enumerate(wanted)}
    with turn.timed('stat of each after a mount'):
        sizes = {name: os.stat(f'{folder}/{name}').st_size for name in numbers}
    turn.same('sizes', sizes, {name: len(str(number)) for name, number in numbers.items()})
    turn.same('listed after a mount', sorted(os.listdir(folder)), sorted(numbers))
    compare_all(turn, 'read', [(number, f'{folder}/{name}') for name, number in numbers.items()], lambda number: b'%d' % number)
    with turn.timed('removed'):
        for name in reversed(wanted):
            os.unlink(f'{folder}/{name}' if name in numbers else f'{folder}/other {name}')
    folder.rmdir()
    turn.end()


# ---- much content

def pieces(number):
    """Where something is written to a long file out of order, and what: as many bytes as it has."""
    some, left = random.Random(f'pieces of {number}'), LONG
    while left > 0:
        size = min(left, some.randrange(1, 64 << 10))
        place, start = some.randrange(LONG - size), some.randrange(len(SOME) - size)
        yield place, SOME[start:start + size]
        left -= size


def first_bytes(number):
    return random.Random(f'bytes of {number}').randbytes(LONG)


def last_bytes(number):
    text = bytearray(first_bytes(number))
    for place, piece in pieces(number):
        text[place:place + len(piece)] = piece
    return bytes(text)


def write_all(file, parts):
    """Writes parts at their places, with a sync behind each so many bytes."""
    waiting = 0
    for place, part in parts:
        if os.pwrite(file, part, place) != len(part):
            raise OSError('a write that ends short')
        waiting += len(part)
        if waiting >= STEP:
            os.fsync(file)
            waiting = 0
    os.fsync(file)


def write_long(turn, title, path, parts):
    file = os.open(path, os.O_WRONLY | os.O_CREAT, 0o644)
    with turn.timed(title):
        write_all(file, parts)
    os.close(file)


def read_out_of_order(turn, title, path, number, wanted):
    parts = [(place, len(piece)) for place, piece in pieces(number)]
    file = os.open(path, os.O_RDONLY)
    os.posix_fadvise(file, 0, 0, os.POSIX_FADV_DONTNEED)
    with turn.timed(title):
        found = [os.pread(file, size, place) for place, size in parts]
    os.close(file)
    wrong = [place for (place, size), text in zip(parts, found) if text != wanted[place:place + size]]
    turn.demand(not wrong, f'{title}: other bytes in {path.name} at {wrong[:SHOWN]}')


def long_files(turn):
    turn.start()
    paths = [turn.root / f'long{number}' for number in range(turn.part(LONG_FILES))]
    for number, path in enumerate(paths):
        text = first_bytes(number)
        write_long(turn, 'written in order', path, [(place, text[place:place + STEP]) for place in range(0, LONG, STEP)])
    for number, path in enumerate(paths):
        write_long(turn, 'written out of order', path, list(pieces(number)))
    turn.again()
    for number, path in enumerate(paths):
        start = time.monotonic()
        found = read_file(path)
        turn.add('read in order', time.monotonic() - start)
        wanted = last_bytes(number)
        turn.demand(found == wanted, f'read in order: other bytes in {path.name}')
        read_out_of_order(turn, 'read out of order', path, number, wanted)
    with turn.timed('removed'):
        for path in paths:
            path.unlink()
    turn.end()


# ---- images of several sizes

def sizes(turn):
    """Of each the image is new and gets one file."""
    for size, inodes in SIZES[:2] if turn.quick else SIZES:
        turn.start(size, inodes)
        path = turn.root / 'file'
        write_file(path, SOME)
        turn.again()
        turn.demand(read_file(path) == SOME, f'other bytes in the file on {size}')
        turn.end()


ROWS = {'sizes': sizes, 'files': files, 'names': names, 'long': long_files}
