"""How long a user waits beside another who does all it can to make it wait, and what memory the server has then."""
import contextlib
import os
import pathlib
import time

from mounted_crowds import work_dir
from mounted_waits import MEBIBYTE, NAMES, link_all, memory, other_names, picked_names
from mounts import Worker

ALONE, BESIDE = 10, 60  # seconds
OPENINGS = 128
SHARE = 0.9  # of the calls that took no longer
NO_SPACE_YET = 64 * MEBIBYTE


def at_share(times):
    """What so large a share of the calls took at most, in microseconds."""
    return sorted(times)[int(SHARE * len(times))] * 1e6


def taken(call, *words):
    begun = time.monotonic()
    call(*words)
    return time.monotonic() - begun


def look_for(path):
    """Asks for a name that nobody asked for before."""
    with contextlib.suppress(FileNotFoundError):
        os.stat(path)


def write_and_sync(place):
    os.pwrite(place, bytes(4096), 0)
    os.fsync(place)


def calls_for(seconds, folder, round_):
    """What each look and each write of 4 KiB with its fsync took."""
    looks, writes, end = [], [], time.monotonic() + seconds
    with open(folder / 'own', 'r+b') as own:
        n = 0
        while time.monotonic() < end:
            looks.append(taken(look_for, folder / f'{round_}-{n}'))
            with contextlib.suppress(OSError):
                writes.append(taken(write_and_sync, own.fileno()))
            n += 1
    return at_share(looks), at_share(writes), n


def make_and_remove(path):
    """Changes a directory twice, if there is space."""
    with contextlib.suppress(OSError):
        path.touch()
        path.unlink()


def list_all(folder, end):
    """Keeps a directory open as often as a user may, and lists it by each, behind a change of it."""
    places = [os.open(folder, os.O_DIRECTORY) for _ in range(OPENINGS - 8)]
    while time.monotonic() < end:
        for place in places:
            make_and_remove(folder / 'change')
            os.lseek(place, 0, os.SEEK_SET)
            os.listdir(place)


def fill(folder, end):
    """Writes until there is no space, and begins anew."""
    while time.monotonic() < end:
        with open(folder / 'large', 'wb', buffering=0) as large, contextlib.suppress(OSError):
            for _ in range(NO_SPACE_YET // MEBIBYTE):
                large.write(bytes(MEBIBYTE))
        with contextlib.suppress(OSError):
            (folder / 'large').unlink()


def flood(folder, end):
    """Looks for names that aren't there, each of which is looked for among all, and makes and removes some."""
    n = 0
    while time.monotonic() < end:
        look_for(folder / f'none-{os.getpid()}-{n}')
        make_and_remove(folder / f'{os.getpid()}')
        n += 1


def attack(kind, folder, seconds):
    {'list': list_all, 'fill': fill, 'flood': flood}[kind](folder, time.monotonic() + seconds)
    return kind


def beside(mounted):
    while mounted.version != 3:
        mounted.fresh()
    mounted.begin()
    crowded, own = work_dir(mounted, 'crowded', user=1000), work_dir(mounted, 'own', user=1001)
    os.chown(own, 1001, 101)
    (own / 'own').write_bytes(bytes(4096))
    os.chown(own / 'own', 1001, 101)
    maker = Worker('ann', link_all)
    maker.ask(crowded, picked_names() + other_names())
    victim = Worker('bob', calls_for)
    alone = victim.ask(ALONE, own, 'alone')
    attackers = [Worker('ann', attack) for _ in range(4)]
    for worker, kind in zip(attackers, ('list', 'fill', 'flood', 'flood')):
        worker.send(kind, crowded, BESIDE + 2)
    time.sleep(1)
    victim.send(BESIDE, own, 'beside')
    most = 0
    for _ in range(BESIDE):
        time.sleep(1)
        most = max(most, memory(mounted.server()))
    with_others = victim.answer()
    for worker in attackers:
        worker.answer()
    for line, one, other in zip(('a look for a name', 'a write of 4 KiB with its fsync'), alone, with_others):
        print(f'beside: {line}: {one:,.0f} us alone, {other:,.0f} us beside, {other / one:.1f} times, of {SHARE:.0%} of the calls at most')
    print(f'beside: {alone[2]:,} of both alone, {with_others[2]:,} beside; the server had at most {most / MEBIBYTE:.0f} MiB, '
          f'the crowded directory {2 * NAMES:,} names')
    for worker in (maker, victim, *attackers):
        worker.end()
    mounted.end()
