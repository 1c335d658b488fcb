"""Steps that several users take, each on the mount and in a directory, one after the other.

A line is `USER: COMMAND`, which a shell of the user's performs in the root of either side, or `USER: !CALL WORD..`, one of the
functions below. What stands in brackets before the user is the number in docs/MOUNT.md under which a difference of that step is
known, as `[5]`, or as `[5 on 2]` where it is known on images of that version of the layout alone. Lines `== TITLE: TOOL..` begin a group,
which needs these tools; groups build on none but themselves.
"""
import mmap
import os
import pathlib
import re
import shutil
import time

from mounts import ACLS, SECONDS, acl_bytes, acls_of, attempt, become

STEPS = (pathlib.Path(__file__).resolve().parent / 'mounted.steps').read_text()
LINE = re.compile(r'(?:\[(\d+)(?: on (\d))?\] )?(\w+): (.*)')


# ---- calls that no tool makes

def set_acl(path, name, text):
    os.setxattr(path, ACLS[name], acl_bytes(text))


def remove_acl(path, name):
    os.removexattr(path, ACLS[name])


def list_attributes(path):
    return sorted(os.listxattr(path))


def unlinked_open_file(path):
    """Bytes that are written to a file without a name, and read again; and what it is."""
    file = os.open(path, os.O_RDWR | os.O_CREAT | os.O_EXCL, 0o600)
    os.write(file, b'first ')
    os.unlink(path)
    os.write(file, b'second')
    os.ftruncate(file, 9)
    seen = os.fstat(file)
    return os.pread(file, 100, 0), seen.st_size, seen.st_nlink, attempt(os.stat, path)


def rename_over_open_file(one, other):
    """An open file that loses its name to another keeps its bytes."""
    pathlib.Path(one).write_bytes(b'new')
    pathlib.Path(other).write_bytes(b'old')
    with open(other, 'rb') as file:
        os.rename(one, other)
        return file.read(), pathlib.Path(other).read_bytes(), os.fstat(file.fileno()).st_nlink


def shared_map(path):
    """Bytes written by a shared map are read by the file, and the other way round."""
    pathlib.Path(path).write_bytes(bytes(10_000))
    with open(path, 'r+b') as file, mmap.mmap(file.fileno(), 0) as pages:
        pages[4090:4100] = b'0123456789'
        pages.flush()
        before = os.pread(file.fileno(), 10, 4090)
        os.pwrite(file.fileno(), b'abc', 9_000)
        return before, pages[9_000:9_003], os.fstat(file.fileno()).st_size


def private_map(path):
    with open(path, 'r+b') as file, mmap.mmap(file.fileno(), 0, access=mmap.ACCESS_COPY) as pages:
        pages[0:3] = b'xyz'
        return pages[0:3], os.pread(file.fileno(), 3, 0)


def map_of_unlinked(path):
    file = os.open(path, os.O_RDWR | os.O_CREAT, 0o600)
    os.ftruncate(file, 5_000)
    os.unlink(path)
    with mmap.mmap(file, 5_000) as pages:
        pages[4_998:5_000] = b'ok'
        pages.flush()
    return os.pread(file, 10, 4_996)


def appends(path):
    """Two descriptors that append."""
    files = [os.open(path, os.O_WRONLY | os.O_CREAT | os.O_APPEND, 0o644) for _ in range(2)]
    for number in range(6):
        os.write(files[number % 2], str(number).encode())
    return pathlib.Path(path).read_bytes()


def removed_directory(path):
    """What is left of a directory that is open while it is removed."""
    os.mkdir(path)
    folder = os.open(path, os.O_RDONLY)
    os.rmdir(path)
    return attempt(os.listdir, folder), attempt(lambda: os.open('x', os.O_CREAT | os.O_WRONLY, dir_fd=folder))


def shown(folder):
    """What is shown of a directory that is open and may be gone: its links, mode, owner and lists, and of an opening anew its names."""
    def opened_anew():
        again = os.open('.', os.O_RDONLY, dir_fd=folder)
        try:
            return os.listdir(again)
        finally:
            os.close(again)
    return (attempt(lambda: (os.fstat(folder).st_nlink, oct(os.fstat(folder).st_mode), os.fstat(folder).st_uid)), attempt(opened_anew),
        attempt(lambda: os.getxattr(f'/proc/self/fd/{folder}', 'system.posix_acl_access')), attempt(lambda: os.listxattr(f'/proc/self/fd/{folder}')))


def removed_directory_shown(path):
    """A directory that was removed, also once its number may be another's, and who stands in it."""
    os.mkdir(path, 0o750)
    folder = os.open(path, os.O_RDONLY)
    os.rmdir(path)
    first = shown(folder)
    os.mkdir(path)
    later = shown(folder)
    os.chdir(path)
    os.rmdir(path)
    below = attempt(os.getcwd), attempt(lambda: os.stat('.').st_nlink), attempt(os.listdir, '.'), attempt(lambda: os.mkdir('x'))
    os.chdir('/')
    return first, later, below


def replaced_directory_shown(path, other):
    """A directory in whose place another was moved."""
    os.mkdir(path)
    os.mkdir(other, 0o711)
    folder = os.open(other, os.O_RDONLY)
    os.rename(path, other)
    seen = shown(folder), oct(os.stat(other).st_mode)
    os.rmdir(other)
    return seen


def descriptor_calls(path):
    """chmod, chown and times by a descriptor, with a name and without one."""
    file = os.open(path, os.O_RDWR | os.O_CREAT, 0o644)
    named = attempt(os.fchmod, file, 0o640), attempt(os.utime, file, (5, 6)), os.fstat(file).st_mtime
    os.unlink(path)
    return named, attempt(os.fchmod, file, 0o600), attempt(os.fchown, file, 0, 0)


def by_descriptor(file):
    """Mode, group and list, given by a descriptor; and what it tells then."""
    changed = attempt(os.fchmod, file, 0o640), attempt(os.fchown, file, -1, 100), attempt(os.fchown, file, 0, -1)
    listed = attempt(os.setxattr, file, ACLS['access'], acl_bytes('u::rw-,u:1001:r--,g::r--,m::r--,o::---'))
    seen = os.fstat(file)
    attributes = sorted(os.listxattr(file)), attempt(os.removexattr, file, ACLS['access'])
    return changed, listed, attributes, oct(seen.st_mode), seen.st_uid, seen.st_gid, seen.st_nlink


def below_closed_directory(path):
    """An open file below a directory that is closed meanwhile is changed by its descriptor, and not by its path."""
    os.mkdir(path, 0o700)
    file = os.open(f'{path}/f', os.O_RDWR | os.O_CREAT, 0o600)
    os.chmod(path, 0)
    seen = attempt(os.chmod, f'{path}/f', 0o666), by_descriptor(file)
    os.chmod(path, 0o700)
    return seen, oct(os.stat(f'{path}/f').st_mode)


def without_a_name(path):
    """An open file without a name is changed, and opened once more."""
    file = os.open(path, os.O_RDWR | os.O_CREAT, 0o600)
    os.write(file, b'here')
    os.unlink(path)
    again = attempt(os.open, f'/proc/self/fd/{file}', os.O_RDONLY)
    return by_descriptor(file), os.read(again, 9) if isinstance(again, int) else again, link_of(file, path)


def link_of(file, path):
    """Gives an open file one more name."""
    here = os.open('.', os.O_RDONLY)  # with it linkat(2) is called, which follows
    return attempt(lambda: os.link(f'/proc/self/fd/{file}', path, src_dir_fd=here, follow_symlinks=True))


def link_by_descriptor(path):
    file = os.open(path, os.O_RDWR | os.O_CREAT, 0o600)
    return link_of(file, f'{path}.linked'), os.fstat(file).st_nlink, os.path.samefile(path, f'{path}.linked')


def times(path):
    """Times that are set are told."""
    os.utime(path, ns=(1_000_000_001, 2_000_000_002))
    seen = os.stat(path)
    return seen.st_atime_ns, seen.st_mtime_ns


def times_move(path):
    """Which times move by which call, seen from one that lies behind."""
    moved = []
    for call in (lambda: os.chmod(path, 0o600), lambda: os.truncate(path, 1), lambda: pathlib.Path(path).write_bytes(b'new'),
                 lambda: os.link(path, f'{path}.link'), lambda: os.rename(f'{path}.link', f'{path}.name')):
        os.utime(path, (100, 100))
        before = os.stat(path)
        call()
        after = os.stat(path)
        moved.append((after.st_mtime != before.st_mtime, after.st_ctime >= before.st_ctime))
    return moved


def times_of_directories(path):
    """Which times of a directory move by a name that comes, changes or goes, and not by a file's bytes."""
    os.mkdir(path)
    moved = []
    for call in (lambda: pathlib.Path(path, 'f').write_bytes(b''), lambda: pathlib.Path(path, 'f').write_bytes(b'x'),
                 lambda: os.rename(f'{path}/f', f'{path}/g'), lambda: os.chmod(f'{path}/g', 0o600),
                 lambda: os.unlink(f'{path}/g')):
        os.utime(path, (100, 100))
        call()
        moved.append(os.stat(path).st_mtime != 100)
    return moved


def holes(path):
    """A file with a hole, and reads within and behind it."""
    with open(path, 'wb') as file:
        file.seek(100_000)
        file.write(b'end')
    with open(path, 'rb') as file:
        return os.pread(file.fileno(), 4, 50_000), os.pread(file.fileno(), 10, 99_998), os.pread(file.fileno(), 1, 200_000)


def limits(folder):
    """The longest names that are taken, in one layout and the other, and those that are one byte longer."""
    return [attempt(os.mkdir, f'{folder}/{"n" * length}') for length in (120, 121, 248, 249)]


def long_name(folder, length):
    """A name that is made, listed, changed and removed."""
    names = ['l' * length, 'm' * length]
    os.mkdir(f'{folder}/{names[0]}')
    os.rename(f'{folder}/{names[0]}', f'{folder}/{names[1]}')
    listed = [name in os.listdir(folder) for name in names]
    os.rmdir(f'{folder}/{names[1]}')
    return listed


def crowd(path, count):
    """How many names a directory takes, and how many it lists then."""
    os.mkdir(path)
    made = [attempt(os.mkdir, f'{path}/{number}') for number in range(count)]
    listed = len(os.listdir(path))
    shutil.rmtree(path)
    return made.count(None), listed


def opens(path, words):
    """An open with these flags, such as `RDONLY|TRUNC`."""
    flags = sum(getattr(os, f'O_{word}') for word in words.split('|'))
    file = attempt(os.open, path, flags, 0o640)
    if isinstance(file, int):
        os.close(file)
        return 'opened'
    return file


def listing_while_removed(path):
    """All names are told once while names that were told are removed."""
    os.mkdir(path)
    for number in range(200):
        pathlib.Path(path, f'n{number}').touch()
    told = []
    for entry in os.scandir(path):
        told.append(entry.name)
        os.unlink(entry.path)
    return len(told), len(set(told)), os.listdir(path)


CALLS = {call.__name__: call for call in (
    set_acl, remove_acl, list_attributes, acls_of, unlinked_open_file, rename_over_open_file, shared_map, private_map,
    map_of_unlinked, appends, removed_directory, removed_directory_shown, replaced_directory_shown, descriptor_calls, below_closed_directory, without_a_name, link_by_descriptor,
    times, times_move,
    times_of_directories, holes, limits, long_name, crowd, opens, listing_while_removed)}
for name in ('chmod', 'chown', 'link', 'symlink', 'rename', 'unlink', 'rmdir', 'mkdir', 'mkfifo', 'truncate', 'access', 'lchown'):
    CALLS[name] = getattr(os, name)


# ---- performing them

def called(words):
    name, *words = words.split()
    numbers = [int(word[1:], 8) if re.fullmatch('=[0-7]+', word) else int(word) if re.fullmatch('-?[0-9]+', word) else word
               for word in words]
    return repr(attempt(CALLS[name], *numbers))


def performed(user, command, side):
    """What a command of a user answers in the root of a side: its text and its status."""
    reading, writing = os.pipe()
    child = os.fork()
    if child == 0:
        try:
            os.chdir(side)
            become(user)
            os.umask(0o022)
            os.dup2(writing, 1)
            os.dup2(writing, 2)
            if command.startswith('!'):
                os.write(1, called(command[1:]).encode())
                os._exit(0)
            home = {'HOME': str(side), 'LC_ALL': 'C', 'PATH': '/usr/local/bin:/usr/bin:/bin', 'GIT_CONFIG_NOSYSTEM': '1'}
            os.execvpe('timeout', ['timeout', str(SECONDS), 'sh', '-c', command], home)
        except BaseException as error:
            os.write(1, repr(error).encode())
            os._exit(1)
    os.close(writing)
    with os.fdopen(reading, 'rb') as text:
        said = text.read().decode('utf-8', 'replace')
    status = os.waitstatus_to_exitcode(os.waitpid(child, 0)[1])
    return said.replace(str(side), '.').strip(), status


def groups():
    """Titles, the tools that a group needs, and its lines."""
    for group in STEPS.split('\n== ')[1:]:
        head, *lines = group.strip().split('\n')
        title, tools = head.split(':')
        yield title, tools.split(), [line for line in lines if line and line[0] != '#']


def take_steps(mounted, compare):
    """Takes the steps of each group on both sides; `compare` is told of each."""
    for title, tools, lines in groups():
        began = time.monotonic()
        missing = [tool for tool in tools if not shutil.which(tool)]
        if missing:
            print(f'{title}: not tried, {" and ".join(missing)} not here', flush=True)
            continue
        for line in lines:
            number, version, user, command = LINE.fullmatch(line).groups()
            answers = [performed(user, command, side) for side in mounted.sides()]
            compare(title, line, number if version in (None, str(mounted.version)) else None, *answers)
        print(f'{title}: {len(lines)} steps, {time.monotonic() - began:.0f} seconds', flush=True)
