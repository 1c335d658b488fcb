"""Users with many groups, users who open all they can, listings of what others change, names that fail and a server that is killed: each
with what is wanted."""
import collections
import concurrent.futures
import itertools
import os
import random
import resource
import signal
import subprocess
import time

from mounts import ACLS, Worker, acl_bytes, as_user, attempt

# User ann with 17 and with 40 groups, and with two credentials of which each has a group of its own.
ANN_IN_17 = (1000, (100, *range(3000, 3016)))
ANN_IN_40 = (1000, (100, *range(3000, 3039)))
ANN_TWICE = [(1000, (100, 300)), (1000, (100, 301))]
LOOK_UPS = 200
OPENED, SPARE = 100_000, 100  # files that one user has open, and what each of its processes needs besides
OVERLAYS = 10
CREATIONS = 10_000
MOST_NAMES = 400
COMING, STAYING = 50, 500  # names of a directory that others list
LISTERS, CHANGERS = 3, 2
LISTED_FOR = 4  # seconds
HELD = []  # what a worker holds open


def work_dir(mounted, name, user=0, mode=0o755):
    """A directory in the root for a user."""
    folder = mounted.mount / name
    folder.mkdir()
    os.chown(folder, user, 100 if user else 0)
    os.chmod(folder, mode)
    return folder


def work_file(folder, name, text, user=0):
    """A file of a user, whose list is given later, if it has one."""
    path = folder / name
    path.write_text(text)
    os.chown(path, user, 100 if user else 0)
    return path


# ---- what is mounted on a directory of the mount

def look_around(place, count):
    """Looks so often at a directory and at two names in it: what that answered."""
    paths = [place, place / 'there', place / 'none'] * count
    return sorted({str(attempt(lambda: bool(os.stat(path)))) for path in paths})


def look_through_overlays(mounted):
    """Looks at it through one overlayfs after the other, each of which asks as who has mounted it: nothing if that is not here."""
    place, empty = mounted.folder / 'upon', mounted.folder / 'nothing'
    for folder in (place, empty):
        folder.mkdir()
    options = f'lowerdir={mounted.mount}:{empty}'
    for _ in range(OVERLAYS):
        if mounted.run('mount', '-i', '-t', 'overlay', '-o', options, 'overlay', place, stderr=subprocess.DEVNULL).returncode:
            return None
        try:
            as_user('ann', lambda: look_around(place / 'covered', LOOK_UPS // OVERLAYS))
        finally:
            mounted.run('umount', place, check=True)
    return True


def mounts_below(mounted, told):
    covered = work_dir(mounted, 'covered')
    mounted.run('mount', '-t', 'tmpfs', '-o', 'mode=755', 'tmpfs', covered, check=True)
    try:
        (covered / 'there').write_text('x')
        told.compare('mounts', 'a user with 17 groups looks below', None,
                     as_user(ANN_IN_17, lambda: look_around(covered, LOOK_UPS)), str(['ENOENT', 'True']))
        told.compare('mounts', 'what is mounted there then', None, os.path.ismount(covered), True)
        # With own_rules the server judges look-ups, and one that is refused unmounts what is below.
        if 'own_rules' in mounted.options or look_through_overlays(mounted) is None:
            print('mounts: a caller whose groups are not known looks below: not tried')
        else:
            told.compare('mounts', 'what is mounted there once somebody unknown has looked', None, os.path.ismount(covered), True)
    finally:
        mounted.run('umount', covered, stderr=subprocess.DEVNULL)


# ---- who opens all that can be opened

def open_many(path, flags, most):
    """Opens a path again and again, and keeps all open: how often, and what the next answers."""
    for number in range(most):
        file = attempt(os.open, path, flags)
        if type(file) is str:
            return number, file
        HELD.append(file)
    return most, None


def most_open():
    """How many files a process may have open here, so that it can open what it needs besides."""
    return resource.getrlimit(resource.RLIMIT_NOFILE)[1] - SPARE


def holder(user):
    resource.setrlimit(resource.RLIMIT_NOFILE, (most_open() + SPARE,) * 2)
    return Worker(user, open_many)


def open_directories(mounted, told):
    ann = holder('ann')
    try:
        seen = ann.ask(mounted.mount, os.O_RDONLY | os.O_DIRECTORY, 300)
        told.compare('open directories', 'of one user', None, seen, (128, 'ENFILE'))
        for user in ('root', 'bob'):
            seen = as_user(user, lambda: 'covered' in os.listdir(mounted.mount))
            told.compare('open directories', f'{user} lists the directory beside them', None, seen, 'True')
    finally:
        ann.end()


def open_files(mounted, told):
    path = work_file(mounted.mount, 'often', 'x')
    count = max(2, -(-OPENED // most_open()))
    holders = [holder(user) for user in itertools.islice(itertools.cycle(ANN_TWICE), count)]
    try:
        seen = [one.ask(path, os.O_RDONLY, OPENED // count) for one in holders]
        told.compare('open files', 'of one user with two credentials', None, seen, [(OPENED // count, None)] * count)
        for user in ('root', 'bob'):
            told.compare('open files', f'{user} opens one beside them', None, as_user(user, path.read_text), 'x')
    finally:
        for one in holders:
            one.end()


# ---- who has many groups

def with_list(path, text):
    os.setxattr(path, ACLS['access'], acl_bytes(text))
    return path


def groups(mounted, told):
    folder = work_dir(mounted, 'lists')
    granted = with_list(work_file(folder, 'granted', 'hello'), 'u::rw-,g::---,g:3038:r--,m::r--,o::---')
    refused = with_list(work_file(folder, 'refused', 'hello'), 'u::rw-,g::r--,g:3037:---,m::r--,o::r--')
    for line, user, wanted in (('in 40 groups', ANN_IN_40, ('hello', 'EACCES')), ('in 17 of them', ANN_IN_17, ('EACCES', 'hello'))):
        seen = tuple(as_user(user, path.read_text) for path in (granted, refused))
        told.compare('groups', f'a user {line}: a list grants a group the file, and another one refuses it', None, seen, wanted)


# ---- two names of one file

def two_names(mounted, told):
    free, closed = work_dir(mounted, 'free', 1000), work_dir(mounted, 'closed', mode=0o700)
    path = work_file(free, 'f', 'hello', 1000)
    os.link(path, closed / 'f')
    for line, call, wanted in (('reads', path.read_text, 'hello'), ('changes the mode', lambda: os.chmod(path, 0o640), 'None')):
        os.stat(closed / 'f')
        told.compare('two names', f'the owner {line} by the name that is not closed', None, as_user('ann', call), wanted)
    told.compare('two names', 'the mode then', None, oct(os.stat(path).st_mode & 0o777), '0o640')


# ---- listings while names come and go

def come_and_go(folder, number, end):
    """Makes and removes names beside those which stay, and gives these to other files, until that time: how many removals there were."""
    dice = random.Random(number)
    removed = 0
    while time.monotonic() < end:
        name = folder / f'a{number}_{dice.randrange(COMING)}'
        kind = dice.random()
        if kind < 0.4:
            attempt(name.touch)
        elif kind < 0.8:
            removed += attempt(name.unlink) is None
        else:
            new = folder / f'b{number}'
            if attempt(new.touch) is None:
                new.rename(folder / f'z{dice.randrange(STAYING)}')
    return removed


def listed_wrongly(folder, staying, end):
    """Lists the directory until that time: how many listings lack a name that stays, and how many have one twice."""
    lacking = twice = 0
    while time.monotonic() < end:
        seen = collections.Counter(os.listdir(folder))
        lacking += any(seen[name] == 0 for name in staying)
        twice += any(seen[name] > 1 for name in staying)
    return lacking, twice


def busy_listings(mounted, told):
    """What POSIX.1-2017 asks of readdir(): a name that is neither added nor removed meanwhile is told once."""
    folder = work_dir(mounted, 'busy')
    staying = [f'z{number}' for number in range(STAYING)]
    for name in staying:
        (folder / name).touch()
    end = time.monotonic() + LISTED_FOR
    with concurrent.futures.ProcessPoolExecutor(LISTERS + CHANGERS) as pool:
        changes = [pool.submit(come_and_go, folder, number, end) for number in range(CHANGERS)]
        listings = [pool.submit(listed_wrongly, folder, staying, end) for _ in range(LISTERS)]
        told.compare('listings', 'each process had names to remove', None, all(change.result() > 0 for change in changes), True)
        for number, listing in enumerate(listings):
            told.compare('listings', f'{number}: those that lack a name that stays, or have it twice', None, listing.result(), (0, 0))


# ---- names that fail

def make_file(path):
    """Makes a file that holds its name: its number."""
    file = os.open(path, os.O_WRONLY | os.O_CREAT | os.O_EXCL, 0o600)
    try:
        os.write(file, path.name.encode())
        return os.fstat(file).st_ino
    finally:
        os.close(file)


def is_own(file, numbers):
    """Whether a file without a name gives its own bytes and number, or says that it is stale."""
    seen = attempt(os.fstat, file)
    return attempt(os.pread, file, 9, 0) in (b'held', 'ESTALE') and (seen == 'ESTALE' or seen.st_ino not in numbers)


def names_in_turn(folder, closed, max_name):
    """Makes files in turn with names that can't be made, and removes half of them where there are many: what went wrong."""
    make_file(folder / 'held')
    held = os.open(folder / 'held', os.O_RDONLY)
    os.unlink(folder / 'held')
    make_file(folder / 'first')
    failing = [(folder / ('n' * (max_name + 1)), 'ENAMETOOLONG'), (folder / 'first', 'EEXIST'), (closed / 'f', 'EACCES'),
               (folder / 'none/f', 'ENOENT')]
    made, wrong = {'first': os.stat(folder / 'first').st_ino}, set()
    for number in range(CREATIONS):
        path, wanted = (folder / f'n{number}', None) if number % 5 == 0 else failing[number % 5 - 1]
        seen = attempt(make_file, path)
        if wanted is None and type(seen) is int:
            made[path.name] = seen
        elif seen != wanted:
            wrong.add(f'{path.name}: {seen}')
        if len(made) > MOST_NAMES:
            for name in list(made)[1:MOST_NAMES // 2]:
                os.unlink(folder / name)
                del made[name]
    there = {name: os.stat(folder / name).st_ino for name in os.listdir(folder)}
    wrong |= {f'{name}: another number, or one of both only' for name in set(made.items()) ^ set(there.items())}
    wrong |= {f'{name}: bytes of another' for name in there if (folder / name).read_text() != name}
    if not is_own(held, there.values()) or len(set(there.values())) != len(there):
        wrong.add('two files with one number')
    return sorted(wrong)[:9]


def failing_names(mounted, told):
    folder, closed = work_dir(mounted, 'names', 1000), work_dir(mounted, 'shut', mode=0o700)
    longest = mounted.layout().max_name
    told.compare('names', f'{CREATIONS:,} creations', None, as_user('ann', lambda: names_in_turn(folder, closed, longest)), '[]')


# ---- a server that is killed

FILES = [f'{number:02}' for number in range(30)]
SYNCED = 10


def write_all(folder):
    """Writes the files one after the other, and syncs one of the first."""
    for number, name in enumerate(FILES):
        with open(folder / name, 'wb', 0) as file:
            file.write(name.encode() * 1000)
            if number == SYNCED:
                os.fsync(file.fileno())


def found_of(folder):
    """Whether just some first files are there, each whole, or the last of them empty; and whether all that were synced are."""
    there = sorted(path.name for path in folder.iterdir())
    sizes = [(folder / name).stat().st_size for name in there]
    whole = [name for name in there if (folder / name).read_bytes() == name.encode() * 1000]
    are_first = there == FILES[:len(there)] and (whole == there or (whole == there[:-1] and sizes[-1] == 0))
    return are_first, whole[:SYNCED + 1] == FILES[:SYNCED + 1]


def killed_at_once(mounted, told):
    folder = work_dir(mounted, 'files')
    write_all(folder)
    os.kill(mounted.server(), signal.SIGKILL)
    if not mounted.gone():
        told.fault('ends: killed right after a write: the mount stays')
        return
    checked = mounted.check().split()[0]
    mounted.begin()
    told.compare('ends', 'killed right after a write: the image, the first files, those that were synced', None,
                 (checked, attempt(found_of, folder)), ('clean', (True, True)))


def crowds(mounted, told):
    mounted.fresh()
    mounted.begin()
    mounts_below(mounted, told)
    open_directories(mounted, told)
    open_files(mounted, told)
    groups(mounted, told)
    two_names(mounted, told)
    busy_listings(mounted, told)
    failing_names(mounted, told)
    killed_at_once(mounted, told)
    mounted.end()
    told.compare('ends', 'the image behind all of it', None, mounted.check().split()[0], 'clean')
