"""What one user may make the server do and keep while another waits: names that are picked, listings of a megabyte, a directory that is opened
often, callers with many groups, and an image that was made to be long to check. None of the users is root."""
import ctypes
import itertools
import os
import pathlib
import struct
import subprocess
import time

from mounted_crowds import work_dir
from mounts import as_user

LIBC = ctypes.CDLL(None, use_errno=True)
GETDENTS64 = 217
MEBIBYTE = 1 << 20
NAMES = 4096
LOOKS = 512  # at names that stand last in their directory; hints are kept of all of them
OPENINGS = 100
MOST_GROUPS = 4096
# Of an image of version 3 with 64 MiB: where its table of inodes begins, its last sector, and where an inode names its triple indirect one.
SECTOR, TABLE, LAST, INODE, TRIPLE = 512, 1320, 131_071, 128, 92
CRAFTED = 1000  # inodes that name one sector
MOST_SECONDS = 4
# A hash that multiplies by 31 gives both the same: of twelve such pairs each there are so many names.
PAIR = ('Aa', 'BB')


def picked_names():
    return [''.join(parts) for parts in itertools.product(PAIR, repeat=12)]


def other_names():
    return [f'{n:024}' for n in range(NAMES)]


def link_all(folder, names):
    """Names of one file."""
    (folder / 'f').touch()
    for name in names:
        os.link(folder / 'f', folder / name)


def forget_names():
    """The kernel forgets what it knows of names that nobody uses."""
    pathlib.Path('/proc/sys/vm/drop_caches').write_text('2')


def processor_time(process):
    """In nanoseconds."""
    return int(pathlib.Path(f'/proc/{process}/schedstat').read_text().split()[0])


def memory(process):
    """In bytes."""
    return int(pathlib.Path(f'/proc/{process}/statm').read_text().split()[1]) * os.sysconf('SC_PAGE_SIZE')


def look_at(folder, names):
    for name in names:
        os.stat(folder / name)


def time_of_looks(mounted, folder, names):
    """What looks at these names cost the server, once each of them was looked for."""
    look_at(folder, names)
    forget_names()
    begun = processor_time(mounted.server())
    as_user('bob', lambda: look_at(folder, names))
    return processor_time(mounted.server()) - begun


def picked(mounted, told, folder):
    """Names of one hash cost the server no more than others of their length in their directory."""
    times = [time_of_looks(mounted, folder, names[-LOOKS:]) for names in (other_names(), picked_names())]
    print(f'waits: {LOOKS:,} look-ups took {times[0] / 1e6:.0f} ms of the server, of picked names {times[1] / 1e6:.0f}')
    told.compare('waits', 'look-ups of picked names take less than twice as long', None, times[1] < 2 * times[0], True)


def names_at_once(folder):
    """How many names one call answers that has room for a megabyte of them."""
    place, room = os.open(folder, os.O_DIRECTORY), ctypes.create_string_buffer(MEBIBYTE)
    length = LIBC.syscall(GETDENTS64, place, room, MEBIBYTE)
    count, at = 0, 0
    while at < length:
        at += struct.unpack_from('<H', room, at + 16)[0]
        count += 1
    os.close(place)
    return count


def list_often(folder):
    """Opens a directory and lists it, each time behind a change of it; then waits to be told to end."""
    places = []
    for n in range(OPENINGS):
        (folder / 'change').touch()
        (folder / 'change').unlink()
        places.append(os.open(folder, os.O_DIRECTORY))
        os.listdir(places[-1])
    return 'listed'


def memory_of_listings(mounted, folder):
    """How much more memory the server has once the directory is open so often and was listed each time, than once it was listed."""
    os.listdir(folder)
    before = memory(mounted.server())

    def work():
        list_often(folder)
        return memory(mounted.server()) - before
    return int(as_user('ann', work))


def listings(mounted, told, folder):
    forget_names()
    seen = int(as_user('bob', lambda: names_at_once(folder)))
    told.compare('waits', 'names of one call that has room for a megabyte of them are at most 128', None, 0 < seen <= 128, True)
    more = memory_of_listings(mounted, folder)
    print(f'waits: {OPENINGS} openings of a directory of {2 * NAMES:,} names, each listed, took {more / MEBIBYTE:.1f} MiB more of the server')
    told.compare('waits', f'memory of {OPENINGS} listings of one directory is at most 4 MiB more', None, more <= 4 * MEBIBYTE, True)


def many_groups(mounted, told):
    folder = work_dir(mounted, 'open-to-all', mode=0o1777)
    for count, wanted in ((MOST_GROUPS, 'None'), (MOST_GROUPS + 1, 'EACCES')):
        seen = as_user((1000, (100, *range(10_000, 10_000 + count - 1))), (folder / f'{count}').mkdir)
        told.compare('waits', f'a directory made by who is in {count:,} groups', None, seen, wanted)


def craft(mounted):
    """An image whose files all name one sector of pointers, which names nothing but itself."""
    script = ''.join(f'1 open /{n} wc 0644\n1 close 0\n' for n in range(CRAFTED))
    mounted.run('inofs', 'run', mounted.image, input=f'spawn 0 0\n{script}', text=True, check=True, stdout=subprocess.DEVNULL)
    with open(mounted.image, 'r+b') as image:
        os.pwrite(image.fileno(), struct.pack('<I', LAST) * 128, SECTOR * LAST)
        for inode in range(2, 2 + CRAFTED):  # the root is inode 1
            os.pwrite(image.fileno(), struct.pack('<I', LAST), SECTOR * TABLE + INODE * inode + TRIPLE)


def crafted(mounted, told):
    """A check of such an image takes as long as of any other."""
    mounted.fresh()
    while mounted.version != 3:
        mounted.fresh()
    craft(mounted)
    begun = time.monotonic()
    line = mounted.check()
    seconds = time.monotonic() - begun
    print(f'waits: a check of {CRAFTED:,} inodes that name one sector of pointers took {seconds:.2f} seconds')
    told.compare('waits', f'a crafted image is told within {MOST_SECONDS} seconds', None, (line, seconds < MOST_SECONDS), (f'finding 6 {LAST}', True))


def waits(mounted, told):
    mounted.fresh()
    mounted.begin()
    if mounted.keeps_times():
        folder = work_dir(mounted, 'crowded', user=1000)
        as_user('ann', lambda: link_all(folder, other_names() + picked_names()))
        picked(mounted, told, folder)
        listings(mounted, told, folder)
    many_groups(mounted, told)
    mounted.end()
    crafted(mounted, told)
