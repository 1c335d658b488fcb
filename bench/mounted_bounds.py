"""The most that one request does: for so long a server answers nobody else.

Each is asked for at the sizes that an image of version 3 allows, or near them. What is told is the server's own processor time, beside the
time on the clock, which other work of the machine makes longer: the median of several, where it can be asked for more than once.
"""
import contextlib
import os
import pathlib
import platform
import statistics
import subprocess
import time

from mounts import in_child

NAMES = 32768  # the most of a directory
LEVELS = 20000  # of directories, one in another
FILE, PIECE = 1 << 30, 1 << 20  # bytes of a file, and of a write
ROUNDS = 9


def processor_time(pid):
    """Nanoseconds that a process of one thread has run."""
    return int(pathlib.Path(f'/proc/{pid}/schedstat').read_text().split()[0])


def taken(server, work):
    """Milliseconds of some work: of the server's processor time, and on the clock."""
    before, start = processor_time(server), time.perf_counter_ns()
    work()
    clock = time.perf_counter_ns() - start
    time.sleep(0.01)  # until the server waits again
    return (processor_time(server) - before) / 1e6, clock / 1e6


def medians(found):
    return tuple(statistics.median(column) for column in zip(*found))


def make(path):
    os.close(os.open(path, os.O_WRONLY | os.O_CREAT | os.O_EXCL, 0o644))


def first_entry(folder):
    with os.scandir(folder) as entries:
        next(entries)


def of_the_largest_directory(server, root):
    folder = root / 'large'
    folder.mkdir()
    for number in range(NAMES - ROUNDS):
        make(folder / f'n{number}')
    yield f'LOOKUP of a name that a directory of {NAMES:,} names hasn\'t', medians(
        [taken(server, lambda: os.access(folder / f'none{number}', os.F_OK)) for number in range(ROUNDS)])
    yield f'CREATE of the last names of {NAMES:,}', medians([taken(server, lambda: make(folder / f'last{number}')) for number in range(ROUNDS)])
    found = []
    for number in range(ROUNDS):
        os.rename(folder / f'n{number}', folder / f'm{number}')  # the kernel lets go of the listing that it keeps
        found.append(taken(server, lambda: first_entry(folder)))
    yield 'READDIRPLUS at the beginning of these', medians(found)


def of_a_large_file(server, root):
    file = os.open(root / 'file', os.O_RDWR | os.O_CREAT, 0o644)
    pieces = [os.urandom(PIECE) for _ in range(ROUNDS)]
    yield 'WRITE of 1 MiB behind the end', medians([taken(server, lambda: os.write(file, piece)) for piece in pieces])
    yield 'WRITE of 1 MiB over what is there', medians(
        [taken(server, lambda: os.pwrite(file, piece, number * PIECE)) for number, piece in enumerate(reversed(pieces))])
    for _ in range(ROUNDS, FILE // PIECE):
        os.write(file, bytes(PIECE))
    os.close(file)
    yield 'UNLINK of a file of 1 GiB', taken(server, lambda: os.unlink(root / 'file'))


def moved_below(server, root):
    """Milliseconds of a rename of a directory to the lowest of many, whose levels are climbed."""
    os.chdir(root)
    for _ in range(LEVELS):
        os.mkdir('d')
        os.chdir('d')
    found = []
    for _ in range(ROUNDS):
        found.append(taken(server, lambda: os.rename(root / 'moved', 'moved')))
        os.rename('moved', root / 'moved')
    return ' '.join(map(str, medians(found)))


def of_a_deep_tree(server, root):
    (root / 'moved').mkdir()
    yield f'RENAME of a directory to {LEVELS:,} levels below', tuple(map(float, in_child(lambda: moved_below(server, root)).split()))


@contextlib.contextmanager
def large_image(mounted):
    """An image of 2 GiB, of which the host sets nothing aside."""
    mounted.image.unlink(missing_ok=True)
    mounted.run('inofs', 'format', mounted.image, '--size', '2G', check=True, stdout=subprocess.DEVNULL)
    mounted.version = 3
    mounted.options.append('thin')
    mounted.begin()
    try:
        yield mounted.server(), mounted.mount
    finally:
        mounted.end()
        mounted.options.pop()


def machine():
    model = next((line.split(': ')[1] for line in pathlib.Path('/proc/cpuinfo').read_text().splitlines() if line.startswith('model name')), 'unknown')
    return f'{os.cpu_count()} processors, {model}, Linux {platform.release()}'


def bounds(mounted):
    """Prints a table of them."""
    print(machine())
    print('| Milliseconds | the server | on the clock |\n|---|---|---|')
    with large_image(mounted) as (server, root):
        for rows in (of_a_large_file, of_the_largest_directory, of_a_deep_tree):
            for row, (own, clock) in rows(server, root):
                print(f'| {row} | {own:.2f} | {clock:.2f} |', flush=True)
