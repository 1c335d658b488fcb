"""Users who change names, modes, owners, lists and bytes between each other's looks, which the kernel may keep: each with what is wanted.

A line of the script is `USER: CALL WORD.. -> WANTED`, one of the functions below in a directory of its group; where nothing is
wanted it has to succeed. `wait` waits so long in either directory, one after the other: a name that is kept is asked again by then.
What is wanted is what POSIX and docs/MOUNT.md say: the directory beside the mount answers the same, but where a line has in
brackets the number of a difference. Under `own_rules` those with number 3 are left out. Lines `== TITLE` begin a group.
"""
import errno
import mmap
import os
import pathlib
import re
import stat
import time

from mounts import ACLS, USERS, Worker, acl_bytes, acl_text, attempt, is_mounted

SCRIPT = (pathlib.Path(__file__).resolve().parent / 'mounted.cached').read_text()
LINE = re.compile(r'(?:\[(\d+)\] )?(\w+): (.*?)(?: -> (.*))?')
KINDS = {stat.S_IFREG: 'file', stat.S_IFDIR: 'directory', stat.S_IFLNK: 'link'}
HELD = {}  # of a worker: open files and maps, by their directory and name


# ---- the calls of a worker

def told(seen):
    """Kind, mode, owner and group, and but for directories links and size."""
    words = [KINDS[stat.S_IFMT(seen.st_mode)], f'{stat.S_IMODE(seen.st_mode):o}', seen.st_uid, seen.st_gid]
    return ' '.join(map(str, words if stat.S_ISDIR(seen.st_mode) else [*words, seen.st_nlink, seen.st_size]))


def text_of(found):
    return found.decode().replace('\0', '.') or 'nothing'


def in_file(path, flags, work):
    file = os.open(path, flags, 0o644)
    try:
        return work(file)
    finally:
        os.close(file)


def flags_of(words):
    """The flags in words such as `RDWR|TRUNC`."""
    return sum(getattr(os, f'O_{word}') for word in words.split('|'))


def set_list(path, kind, text):
    os.setxattr(path, ACLS[kind], acl_bytes(text))


def listed(place):
    return ' '.join(sorted(os.listdir(place))) or 'nothing'


def mount(path):
    if os.spawnlp(os.P_WAIT, 'mount', 'mount', '-t', 'tmpfs', '-o', 'mode=755', 'tmpfs', path):
        raise OSError(errno.EIO, path)


def held_map(path):
    return in_file(path, os.O_RDONLY, lambda file: mmap.mmap(file, 0, access=mmap.ACCESS_READ))


# By a path, which stands first.
BY_PATH = {
    'stat': lambda path: told(os.stat(path)), 'lstat': lambda path: told(os.lstat(path)), 'list': listed,
    'read': lambda path: in_file(path, os.O_RDONLY, lambda file: text_of(os.read(file, 99))),
    'access': lambda path, wanted: os.access(path, sum({'r': 4, 'w': 2, 'x': 1}[letter] for letter in wanted)),
    'readlink': os.readlink, 'getacl': lambda path, kind: acl_text(os.getxattr(path, ACLS[kind])), 'mounted': is_mounted,
    'make': lambda path, text: in_file(path, os.O_WRONLY | os.O_CREAT | os.O_EXCL, lambda file: os.write(file, text.encode())) * 0,
    'write': lambda path, text: in_file(path, os.O_WRONLY, lambda file: os.write(file, text.encode())) * 0,
    'truncate': lambda path, size: os.truncate(path, int(size)), 'unlink': os.unlink, 'rmdir': os.rmdir,
    'mkdir': lambda path, mode: (os.mkdir(path), os.chmod(path, int(mode, 8))) and None,
    'chmod': lambda path, mode: os.chmod(path, int(mode, 8)), 'symlink': lambda path, target: os.symlink(target, path),
    'chown': lambda path, user, group: os.chown(path, int(user), int(group)),
    'acl': set_list, 'noacl': lambda path, kind: os.removexattr(path, ACLS[kind]),
    'wait': lambda path, seconds: time.sleep(float(seconds)), 'mount': mount, 'umount': lambda path: os.spawnlp(os.P_WAIT, 'umount', 'umount', path),
}
# By two paths.
BY_PATHS = {'rename': os.rename, 'link': lambda path, other: os.link(path, other, follow_symlinks=False)}
# What is held from then on by a name that stands before the path.
HOLDING = {'open': lambda path, flags: os.open(path, flags_of(flags)), 'map': held_map}
# By such a name.
BY_HELD = {
    'pread': lambda file: text_of(os.pread(file, 99, 0)), 'fstat': lambda file: told(os.fstat(file)), 'listof': listed,
    'statat': lambda folder, name: told(os.stat(name, dir_fd=folder)), 'mapped': lambda pages: text_of(pages[:99]),
    'pwrite': lambda file, text, place: os.pwrite(file, text.encode(), int(place)) * 0,
    'ftruncate': lambda file, size: os.ftruncate(file, int(size)), 'fchmod': lambda file, mode: os.fchmod(file, int(mode, 8)),
}
# What changes nothing is done twice, since the second may be answered by what is kept.
LOOKS = {'stat', 'lstat', 'list', 'read', 'access', 'readlink', 'getacl', 'mounted', 'pread', 'fstat', 'listof', 'statat', 'mapped'}


def call(folder, name, *words):
    if name in HOLDING:
        HELD[folder, words[0]] = HOLDING[name](f'{folder}/{words[1]}', *words[2:])
        return None
    if name in BY_HELD:
        return BY_HELD[name](HELD[folder, words[0]], *words[1:])
    if name in BY_PATHS:
        return BY_PATHS[name](*(f'{folder}/{word}' for word in words))
    return BY_PATH[name](f'{folder}/{words[0]}', *words[1:])


def answer(folder, name, *words):
    """What a call answers in a directory, as text; and where a second look differs, that too."""
    seen = [attempt(call, folder, name, *words) for _ in range(2 if name in LOOKS else 1)]
    texts = [{None: 'done', 0: 'done'}.get(one, one) if type(one) is not bool else 'yes' if one else 'no' for one in seen]
    return ' and then '.join(dict.fromkeys(map(str, texts)))


# ---- performing the script

def groups():
    """Titles, and the lines of each."""
    for group in SCRIPT.split('\n== ')[1:]:
        title, *lines = group.strip().split('\n')
        yield title, [line for line in lines if line and line[0] != '#']


def one_line(mounted, compared, workers, folders, title, line):
    number, user, words, wanted = LINE.fullmatch(line).groups()
    if number == '3' and 'own_rules' in mounted.options:
        return
    ours, theirs = (workers[user].ask(folder, *words.split()) for folder in folders)
    compared.compare(title, line, None, ours, wanted or 'done')
    if number in (None, '3') and theirs != (wanted or 'done'):
        compared.fault(f'{title}: {line}\n    the directory beside it: {theirs}')


def cached(mounted, compared):
    mounted.fresh()
    mounted.begin()
    workers = {user: Worker(user, answer) for user in USERS}
    for title, lines in groups():
        folders = [str(side / title.replace(' ', '-')) for side in mounted.sides()]
        for folder in folders:
            os.mkdir(folder)
            os.chmod(folder, 0o777)
        for line in lines:
            one_line(mounted, compared, workers, folders, title, line)
    for worker in workers.values():
        worker.end()
    mounted.end()
    if not mounted.check().startswith('clean '):
        compared.fault(f'the image behind the looks: {mounted.check()}')
