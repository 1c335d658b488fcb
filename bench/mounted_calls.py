"""Random calls of four users, each on the mount and in a directory: single ones, and those of users who look at what others change.

In every third tree the times of all objects are compared after each call. In the others nobody looks at them, so that the kernel keeps
just what the users have looked at.
"""
import ctypes
import mmap
import os
import random
import stat

from mounted_stamps import Watch
from mounts import ACLS, USERS, Worker, acl_bytes, acl_text, attempt, other_nodes, tree_of

FOLDERS, NAMES = ['a', 'b'], ['c', 'd', 'e']  # names that mostly directories have, and that mostly others have
WHO = list(USERS)[:4]
# The last is no default list: with mode 0644 its mask would be empty while others may read, which is known to differ (2 in
# docs/MOUNT.md). For the same reason no mode below grants something to others and nothing to the group.
LISTS = ['u::rwx,g::r-x,o::r-x', 'u::rw-,u:1001:rwx,g::r--,m::rwx,o::---', 'u::rwx,u:1002:---,g::rwx,m::rwx,o::rwx',
         'u::rwx,g::---,g:200:rwx,m::rwx,o::--x', 'u::r--,u:1000:rwx,g::rwx,m::r-x,o::r--', 'u::rwx,u:1001:-wx,g::--x,m::-wx,o::rwx']
MODES = [0o777, 0o755, 0o750, 0o700, 0o644, 0o640, 0o600, 0o444, 0o111, 0o333, 0o070, 0o017, 0]
OPENS = [os.O_RDONLY, os.O_WRONLY, os.O_RDWR, os.O_RDONLY | os.O_TRUNC, os.O_WRONLY | os.O_CREAT, os.O_RDWR | os.O_CREAT,
         os.O_RDWR | os.O_CREAT | os.O_EXCL, os.O_WRONLY | os.O_CREAT | os.O_TRUNC, os.O_RDONLY | os.O_DIRECTORY,
         os.O_RDONLY | os.O_NOFOLLOW, os.O_WRONLY | os.O_APPEND]
MASKS = [0o022, 0, 0o077, 0o027]
PLACES = [0, 0, 5, 511, 600, 4095, 9000, 80_000]
NOW, STAYS = (0, (1 << 30) - 1), (0, (1 << 30) - 2)  # UTIME_NOW and UTIME_OMIT of utimensat(2)
TIMES = [(NOW, NOW), (NOW, NOW), ((1, 5), (2, 6)), ((1, 5), (2, 6)), (NOW, STAYS), (STAYS, NOW), ((3, 7), STAYS), (STAYS, (4, 8)), (NOW, (9, 9))]
LIBC = ctypes.CDLL(None, use_errno=True)
FILES = {}  # of a worker: the descriptors of each side by their numbers, the last opened at the end


# ---- the calls of a worker

def opened(root, path, flags, mode):
    file = os.open(path, flags, mode)
    FILES.setdefault(root, []).append(file)
    if len(FILES[root]) > 6:
        os.close(FILES[root].pop(0))
    return 'open'


def by_file(root, number, call, *words):
    files = FILES.get(root, [])
    return call(files[number % len(files)], *words) if files else 'none'


def shown(seen):
    """What both sides have to tell alike: of directories neither links nor size."""
    alike = (oct(seen.st_mode), seen.st_uid, seen.st_gid)
    return alike if stat.S_ISDIR(seen.st_mode) else (*alike, seen.st_nlink, seen.st_size)


def change_mode(file, mode):
    """Of a file that has a name: a difference is known of others."""
    return os.fchmod(file, mode) if os.fstat(file).st_nlink else 'nameless'


def keeps_group_bit(path):
    """Whether it is a directory with set-group-ID, and who gives it a list isn't in its group: 3 in docs/MOUNT.md is known then."""
    seen = os.stat(path)
    outside = os.geteuid() and seen.st_gid not in (os.getegid(), *os.getgroups())
    return stat.S_ISDIR(seen.st_mode) and seen.st_mode & stat.S_ISGID and outside


def set_list(path, name, text):
    if name == 'access' and text and keeps_group_bit(path):
        return 'set-group-ID'
    return os.setxattr(path, ACLS[name], acl_bytes(text)) if text else os.removexattr(path, ACLS[name])


def set_times(path, access, modification, follow):
    stamps = (ctypes.c_long * 4)(*access, *modification)
    if LIBC.utimensat(-100, os.fsencode(path), stamps, 0 if follow else 0x100):  # AT_FDCWD and AT_SYMLINK_NOFOLLOW
        raise OSError(ctypes.get_errno(), path)


def in_file(path, flags, call, *words):
    file = os.open(path, flags, 0o666)
    try:
        return call(file, *words)
    finally:
        os.close(file)


def mapped(file):
    """The first bytes by a map, of a file that has some."""
    seen = os.fstat(file)
    if not stat.S_ISREG(seen.st_mode) or not seen.st_size:
        return 'nothing'
    with mmap.mmap(file, seen.st_size, access=mmap.ACCESS_READ) as pages:
        return pages[:100]


def point(path, target):
    """Lets a symbolic link take the place of whatever has the name."""
    os.symlink(target, f'{path}~')
    try:
        os.rename(f'{path}~', path)
    except OSError:
        os.unlink(f'{path}~')
        raise


CALLS = {
    'open': lambda root, path, flags, mode: opened(root, path, flags, mode),
    'close': lambda root, number: os.close(FILES[root].pop(number % len(FILES[root]))) if FILES.get(root) else None,
    'read': lambda root, number, size, place: by_file(root, number, os.pread, size, place),
    'write': lambda root, number, data, place: by_file(root, number, os.pwrite, data, place),
    'fstat': lambda root, number: by_file(root, number, lambda file: shown(os.fstat(file))),
    'ftruncate': lambda root, number, size: by_file(root, number, os.ftruncate, size),
    'fchmod': lambda root, number, mode: by_file(root, number, change_mode, mode),
    'fsync': lambda root, number: by_file(root, number, os.fsync),
    'mapped': lambda root, number: by_file(root, number, mapped),
    'content': lambda root, path: in_file(path, os.O_RDONLY, os.read, 100_000),
    'put': lambda root, path, data, place: in_file(path, os.O_WRONLY | os.O_CREAT, os.pwrite, data, place),
    'mkdir': lambda root, path, mode: os.mkdir(path, mode),
    'rmdir': lambda root, path: os.rmdir(path),
    'unlink': lambda root, path: os.unlink(path),
    'rename': lambda root, path, other: os.rename(path, other),
    'link': lambda root, path, other: os.link(path, other, follow_symlinks=False),
    'symlink': lambda root, path, target: os.symlink(target, path),
    'point': lambda root, path, target: point(path, target),
    'readlink': lambda root, path: os.readlink(path),
    'stat': lambda root, path: shown(os.stat(path)),
    'lstat': lambda root, path: shown(os.lstat(path)),
    'chmod': lambda root, path, mode: os.chmod(path, mode if os.path.isdir(path) else mode & 0o777),
    'chown': lambda root, path, uid, gid: os.chown(path, uid, gid),
    'truncate': lambda root, path, size: os.truncate(path, size),
    'access': lambda root, path, wanted: os.access(path, wanted),
    'listdir': lambda root, path: sorted(os.listdir(path)),
    'umask': lambda root, mask: os.umask(mask) * 0,
    'setacl': lambda root, path, name, text: set_list(path, name, text),
    'getacl': lambda root, path, name: acl_text(os.getxattr(path, ACLS[name])),
    'utime': lambda root, path, *words: set_times(path, *words),
}
BY_NUMBER = {'close', 'read', 'write', 'fstat', 'ftruncate', 'fchmod', 'fsync', 'mapped', 'umask'}


def perform(root, name, *words):
    """A call of a worker on a side. Names that stand first are below its root."""
    words = list(words)
    if name not in BY_NUMBER:
        words[0] = f'{root}/{words[0]}'
    if name in ('rename', 'link'):
        words[1] = f'{root}/{words[1]}'
    return attempt(CALLS[name], str(root), *words)


# ---- which calls

# How often one comes as a single call, among those that look at a path, and among those that change it.
SINGLE = {'open': 14, 'mkdir': 8, 'write': 8, 'read': 6, 'stat': 6, 'rename': 6, 'setacl': 6, 'chmod': 5, 'access': 4, 'link': 4,
          'lstat': 4, 'listdir': 4, 'unlink': 4, 'getacl': 4, 'symlink': 3, 'fstat': 3, 'truncate': 3, 'close': 3, 'put': 3, 'rmdir': 2,
          'chown': 2, 'ftruncate': 2, 'fchmod': 2, 'utime': 2, 'content': 2, 'readlink': 1, 'umask': 1, 'fsync': 1, 'mapped': 1}
LOOKS = {'stat': 6, 'lstat': 4, 'content': 5, 'access': 3, 'open': 2, 'readlink': 2, 'getacl': 2}
FOLDER_LOOKS = {'stat': 6, 'lstat': 3, 'listdir': 6, 'access': 3, 'getacl': 2}
CHANGES = {'rename': 6, 'unlink': 5, 'put': 5, 'chmod': 5, 'setacl': 5, 'link': 4, 'point': 4, 'mkdir': 4, 'chown': 3, 'truncate': 3,
           'rmdir': 3, 'symlink': 2}
FOLDER_CHANGES = {'rename': 6, 'chmod': 6, 'setacl': 5, 'mkdir': 5, 'rmdir': 4, 'chown': 3, 'point': 1, 'symlink': 1}
OF_FOLDERS, OF_FILES = {'mkdir', 'rmdir', 'listdir'}, {'put', 'content', 'truncate', 'unlink', 'link', 'point', 'readlink', 'symlink'}
MAKING = {'mkdir', 'symlink'}
# What other users do to a file that one has open, and what the one does by its descriptor.
BY_OTHERS = {'put': 4, 'truncate': 4, 'content': 3, 'stat': 3, 'unlink': 2, 'rename': 2, 'link': 2, 'chmod': 2, 'point': 1}
BY_HOLDER = {'write': 4, 'read': 4, 'fstat': 4, 'mapped': 3, 'ftruncate': 3, 'fchmod': 1, 'link': 1}


class Choice:
    """Picks users, calls and their words. Most paths are among those that the last calls found, made or moved."""

    def __init__(self, dice, endings):
        self.dice, self.endings, self.there = dice, endings, []

    def among(self, weights):
        return self.dice.choices(list(weights), list(weights.values()))[0]

    def user(self):
        return self.dice.choice([*WHO, 'root'])

    def number(self):
        return self.dice.randrange(6)

    def path(self, name=None):
        """A path for a call of this name, or for what is to be made."""
        dice = self.dice
        of_folder = dice.random() < (0.8 if name in OF_FOLDERS else 0.1 if name in OF_FILES else 0.3)
        there = [path for path in self.there if (path[-1] in FOLDERS) == of_folder]
        if name not in MAKING and there and dice.random() < 0.7:
            return dice.choice(there)
        above = dice.choice([path for path in self.there if path[-1] in FOLDERS] or [''])
        if dice.random() < 0.3:
            above = '/'.join(dice.choice([*FOLDERS * 4, *NAMES]) for _ in range(dice.choice([0, 0, 1, 1, 2, 3])))
        return f'{above}/{dice.choice(FOLDERS if of_folder else NAMES)}'.lstrip('/') + dice.choice(self.endings)

    def learn(self, name, words):
        """A call has succeeded."""
        gone = {words[0]} if name in ('unlink', 'rmdir', 'rename') else set()
        new = [words[1 if name in ('rename', 'link') else 0]]
        self.there = [*(new if name not in ('unlink', 'rmdir') else []), *(path for path in self.there if path not in gone.union(new))][:15]

    def data(self):
        return bytes([65 + self.dice.randrange(26)]) * self.dice.choice([1, 100, 513, 5000])

    def list_words(self):
        kind = self.dice.choice(['access', 'default'])
        return kind, self.dice.choice([*(LISTS if kind == 'access' else LISTS[:-1]), None])

    def words(self, name, first):
        """Random words of a call, the first of which is given: a path, or the number of a descriptor."""
        dice = self.dice
        return (first, *{
            'open': lambda: (dice.choice(OPENS), dice.choice(MODES)), 'read': lambda: (dice.choice([1, 100, 5000]), dice.choice(PLACES)),
            'write': lambda: (self.data(), dice.choice(PLACES)), 'put': lambda: (self.data(), dice.choice(PLACES)),
            'ftruncate': lambda: (dice.choice(PLACES),), 'truncate': lambda: (dice.choice(PLACES),),
            'fchmod': lambda: (dice.choice(MODES),), 'mkdir': lambda: (dice.choice(MODES),),
            'chmod': lambda: (dice.choice(MODES) | dice.choice([0, 0, 0, 0o1000, 0o2000]),),
            'rename': lambda: (self.path(dice.choice([name, 'mkdir'])),), 'link': lambda: (self.path('symlink'),),
            'point': lambda: (self.path(name),),
            'symlink': lambda: (dice.choice([self.path(name), '../' + self.path(name), 'x' * 300]),),
            'chown': lambda: (dice.choice([-1, 1000, 1001]), dice.choice([-1, 100, 101, 200])),
            'access': lambda: (dice.randrange(8),), 'getacl': lambda: (dice.choice(['access', 'default']),),
            'setacl': self.list_words, 'utime': lambda: (*dice.choice(TIMES), dice.random() < 0.7),
        }.get(name, tuple)())

    def single(self):
        name = self.among(SINGLE)
        first = self.dice.choice(MASKS) if name == 'umask' else self.number() if name in BY_NUMBER else self.path(name)
        yield self.user(), name, *self.words(name, first)

    def looked_at(self):
        """Users look at a path, one of them changes it or what is above it or another name, and all look again."""
        path, users = self.path('stat'), self.dice.sample(WHO, self.dice.choice([2, 2, 3]))
        weights = FOLDER_LOOKS if path[-1] in FOLDERS else LOOKS
        looks = [(user, name, *self.words(name, path)) for user in users for name in (self.among(weights), self.among(weights))]
        looks = [(*look[:3], os.O_RDONLY, 0) if look[1] == 'open' else look for look in looks]
        name = self.among(FOLDER_CHANGES if path[-1] in FOLDERS else CHANGES)
        words = self.words(name, self.dice.choice([path, path, path, path.rpartition('/')[0] or path]))
        if name in ('rename', 'link') and self.dice.random() < 0.4:
            words = (words[1], path)
        yield from looks
        yield self.dice.choice([*WHO, 'root']), name, *words
        yield from looks

    def kept_open(self):
        """One has a file open while others write, cut, move and remove it."""
        path, (one, other) = self.path('put'), self.dice.sample(WHO, 2)
        yield one, 'open', path, os.O_RDWR | self.dice.choice([0, os.O_CREAT]), self.dice.choice([0o666, 0o777, 0o644])
        for _ in range(self.dice.choice([2, 3, 4])):
            name = self.among(BY_OTHERS)
            yield other, name, *self.words(name, path)
            for name in (self.among(BY_HOLDER), self.among(BY_HOLDER)):
                yield one, name, *self.words(name, -1 if name in BY_NUMBER else path)
        yield one, 'fstat', -1
        yield other, 'content', path

    def first(self):
        """What a tree begins with: directories for all users, with files of some."""
        for folder in FOLDERS:
            for place in (folder, f'{folder}/{folder}'):
                yield self.user(), 'mkdir', place, 0o777
                yield 'root', 'chmod', place, 0o777
                for name in NAMES[:2]:
                    yield self.user(), 'put', *self.words('put', f'{place}/{name}')

    def calls(self):
        """Without end."""
        yield from self.first()
        while True:
            yield from self.dice.choice([self.single] * 12 + [self.looked_at] * 2 + [self.kept_open])()


# ---- performing them

def failed(seen):
    """Whether an answer is the name of an error."""
    return type(seen) is str and seen.startswith('E')


def known(mounted, local, name, words, ours, theirs):
    """The number in docs/MOUNT.md of a difference, where it is one that is known; the directory is that of the tree."""
    if 'own_rules' in mounted.options and (failed(ours) and failed(theirs) or name == 'link' and theirs == 'EPERM'):
        return 1
    # The present time, of a link itself: Linux asks whether that may be written, and all may.
    if name == 'utime' and tuple(words[1:]) == (NOW, NOW, False) and (ours, theirs) == ('EPERM', None) and (local / words[0]).is_symlink():
        return 6
    return None


def known_times(name, words, call, differing):
    """The number in docs/MOUNT.md, where all times that differ after a call do so as is known."""
    def all_are(fields, by_mount):
        return all(seen.field in fields and (seen.ours == call, seen.theirs == call) == (by_mount, not by_mount) for seen in differing)
    # Owner and group that are to stay: Linux's own file systems move the time, which POSIX leaves open, and ask no server.
    if name == 'chown' and tuple(words[1:]) == (-1, -1) and all_are(['change'], False):
        return 6
    # A list that is given, or taken, where it is, or isn't: ext4 leaves the time, others move it, as the mount does.
    if name == 'setacl' and all_are(['change'], True):
        return 6
    # A size that the file has: POSIX moves both times, as the mount and ext4 do; others leave them.
    if name == 'truncate' and all_are(['modification', 'change'], True):
        return 6
    return None


def compare_times(watch, told, call, line, number, name, words, ours):
    """Of all objects, once the call has answered so on the mount, a difference being known by this number."""
    given = name == 'utime' and not failed(ours) and words[1] != STAYS
    differing = watch.end(words[0], words[3]) if given else watch.end()
    texts = [{f'{seen.path}, {seen.field}': getattr(seen, side) for seen in differing} for side in ('ours', 'theirs')]
    told.compare('times', line, number or differing and known_times(name, words, call, differing), *texts)
    if differing:
        watch.mend(f'after {call}', sorted({seen.path for seen in differing}))


def random_calls(mounted, told, seed, count):
    """So many calls in trees of up to 500, each image having some. A difference that is known and leaves other trees ends them."""
    # With own_rules `.` and `..` ask for no search, as is known.
    endings = [''] * 12 + (['/'] if 'own_rules' in mounted.options else ['/', '/.', '/..'])
    choice, done = Choice(random.Random(seed), endings), 0
    while done < count:
        mounted.fresh()
        mounted.begin()
        for tree in range(6):
            done = one_tree(mounted, told, choice, tree, done, min(done + 500, count), tree % 3 == 1)
        mounted.end()
        if not mounted.check().startswith('clean '):
            told.fault(f'the image after random calls of seed {seed}: {mounted.check()}')


def one_tree(mounted, told, choice, tree, done, last, watched):
    """Makes the calls from one number to another, the times being looked at or not: the number of the next one."""
    sides = [side / str(tree) for side in mounted.sides()]
    for side in sides:
        side.mkdir()
        side.chmod(0o777)
    choice.there = []
    watch = Watch(sides) if watched else None
    workers = {user: Worker(user, perform) for user in WHO}
    roots = [str(side) for side in sides]
    try:
        for user, name, *words in choice.calls():
            if done == last:
                break
            line = f'{done}: {user} {name} {words}'
            if watch:
                watch.begin(f'call {done}')
            ours, theirs = workers[user].ask_each(roots, name, *words)
            number = known(mounted, sides[1], name, words, ours, theirs)
            told.compare('random calls', line, number, ours, theirs)
            if number and failed(ours) != failed(theirs) and name in ('fchmod', 'link'):
                return done + 1
            if watch:
                compare_times(watch, told, f'call {done}', line, number, name, words, ours)
            done += 1
            if ours == theirs and not failed(ours) and name not in BY_NUMBER:
                choice.learn(name, words)
    finally:
        for worker in workers.values():
            worker.end()
    for text in other_nodes(*(tree_of(side) for side in sides)):
        told.fault(f'random calls, up to {done}: {text}')
    return done
