"""A mounted image beside a directory of the machine's own file system, and users who work on both."""
import collections
import hashlib
import itertools
import os
import pathlib
import pickle
import shutil
import stat
import struct
import subprocess
import time
import traceback

TOP = pathlib.Path(__file__).resolve().parent.parent
PROGRAM = TOP / 'crates/inofs/out/inofs'
SECONDS = 120  # how long a step may take
UNMOUNTS = 5  # how often an unmount is tried that finds the mount in use
# Name: user id, group ids, the first of which is that of the files. Two share a group, and one has a second one.
USERS = {'root': (0, [0]), 'ann': (1000, [100]), 'bob': (1001, [101, 200]), 'cy': (1002, [100, 200]), 'dan': (1003, [103])}
ACLS = {'access': 'system.posix_acl_access', 'default': 'system.posix_acl_default'}
TAGS = {'u': (1, 2), 'g': (4, 8), 'm': (16, 16), 'o': (32, 32)}  # of an unnamed entry and of a named one
# How an image of a version of the layout is made, how large it is then, and how long its names may be.
Layout = collections.namedtuple('Layout', 'verb numbers size inodes max_name')
LAYOUTS = {2: Layout('mkfs', ('--sectors', '65536', '--inodes', '4096'), '32M', 4096, 120),
           3: Layout('format', ('--size', '64M', '--inodes', '8192'), '64M', 8192, 248)}
LARGE = Layout('format', ('--size', '1G'), '1G', 65536, 248)


def become(user):
    """Takes the credential of a user by its name, or a user id and some groups."""
    uid, groups = USERS.get(user, user)
    os.setgroups(groups)
    os.setresgid(groups[0], groups[0], groups[0])
    os.setresuid(uid, uid, uid)


def acl_bytes(text):
    """The value of the attribute for a list such as `u::rwx,u:1001:r--,g::r-x,m::rwx,o::---`."""
    entries = []
    for entry in text.split(','):
        kind, who, bits = entry.split(':')
        tag = TAGS[kind][1 if who else 0]
        perms = sum(value for value, letter in ((4, 'r'), (2, 'w'), (1, 'x')) if letter in bits)
        entries.append((tag, int(who) if who else 0xffffffff, perms))
    return struct.pack('<I', 2) + b''.join(struct.pack('<HHI', tag, perms, who) for tag, who, perms in sorted(entries))


def acl_text(value):
    """The list that stands in the value of the attribute."""
    letters = {tag: kind for kind, tags in TAGS.items() for tag in tags}
    entries = [struct.unpack_from('<HHI', value, at) for at in range(4, len(value), 8)]
    return ','.join(f'{letters[tag]}:{"" if who == 0xffffffff else who}:' +
                    ''.join(letter if perms & bit else '-' for bit, letter in ((4, 'r'), (2, 'w'), (1, 'x')))
                    for tag, perms, who in entries)


def acls_of(path):
    """Both lists of a file or directory, as far as it has them."""
    found = {}
    for name, attribute in ACLS.items():
        try:
            found[name] = acl_text(os.getxattr(path, attribute, follow_symlinks=False))
        except OSError:
            pass
    return found


def node_of(path):
    """What two trees have to have alike of a path: everything but times, numbers and the sizes and links of directories."""
    seen = os.lstat(path)
    told = {'type': stat.S_IFMT(seen.st_mode), 'mode': oct(stat.S_IMODE(seen.st_mode)), 'owner': (seen.st_uid, seen.st_gid)}
    if stat.S_ISLNK(seen.st_mode):
        told['target'] = os.readlink(path)
    else:
        told.update(acls_of(path))
    if stat.S_ISREG(seen.st_mode):
        told.update(size=seen.st_size, links=seen.st_nlink, bytes=hashlib.sha256(path.read_bytes()).hexdigest()[:16])
    return told


def tree_of(root):
    """All paths below a directory and what they are. No access is asked: it is root who looks."""
    found = {'.': node_of(root)}
    for folder, folders, files in os.walk(root):
        for name in folders + files:
            path = pathlib.Path(folder, name)
            found[str(path.relative_to(root))] = node_of(path)
    return found


def other_nodes(one, other):
    """Where two trees differ."""
    for path in sorted(set(one) | set(other)):
        if path not in one or path not in other:
            yield f'{path}: only {"on the mount" if path in one else "in the directory"}'
            continue
        for key in sorted(set(one[path]) | set(other[path])):
            if one[path].get(key) != other[path].get(key):
                yield f'{path}: {key} {one[path].get(key)} on the mount, {other[path].get(key)} in the directory'


class Worker:
    """A process with the credential of a user, which performs what it is sent."""

    def __init__(self, user, perform):
        asked, self.sending = os.pipe()
        self.receiving, answered = os.pipe()
        self.pid = os.fork()
        if self.pid == 0:
            os.close(self.sending)
            os.close(self.receiving)
            self.work(user, perform, os.fdopen(asked, 'rb'), os.fdopen(answered, 'wb'))
        os.close(asked)
        os.close(answered)
        self.sending, self.receiving = os.fdopen(self.sending, 'wb'), os.fdopen(self.receiving, 'rb')

    @staticmethod
    def work(user, perform, asked, answered):
        try:
            become(user)
            os.umask(0o022)
            while words := pickle.load(asked):
                pickle.dump(perform(*words), answered)
                answered.flush()
            os._exit(0)
        except BaseException:
            traceback.print_exc()
            os._exit(1)

    def ask(self, *words):
        self.send(*words)
        return self.answer()

    def ask_each(self, roots, *words):
        """The answers of calls with these words, one for each root, one after another."""
        for root in roots:
            pickle.dump((root, *words), self.sending)
        self.sending.flush()
        return [self.answer() for _ in roots]

    def send(self, *words):
        pickle.dump(words, self.sending)
        self.sending.flush()

    def answer(self):
        return pickle.load(self.receiving)

    def end(self):
        """Ends it by no words: later workers hold its pipe open too."""
        self.send()
        os.waitpid(self.pid, 0)
        self.sending.close()
        self.receiving.close()


def attempt(call, *words):
    """What a call answers, or the name of its error."""
    import errno
    try:
        return call(*words)
    except OSError as error:
        return errno.errorcode.get(error.errno, str(error.errno))


def is_mounted(path):
    """Whether something is mounted there by the kernel's list: a look at it fails where its server has ended, and asks one that runs."""
    return any(line.split()[4] == str(path) for line in pathlib.Path('/proc/self/mountinfo').read_text().splitlines())


def in_child(work):
    """What the work answers in a process of its own, as text."""
    reading, writing = os.pipe()
    pid = os.fork()
    if pid == 0:
        try:
            os.write(writing, str(attempt(work)).encode())
        finally:
            os._exit(0)
    os.close(writing)
    os.waitpid(pid, 0)
    with os.fdopen(reading) as told:
        return told.read()


def as_user(user, work):
    """The same as a user."""
    def become_and_work():
        become(user)
        return work()
    return in_child(become_and_work)


class Mounted:
    """A folder with an image that is mounted, and a directory beside it. Its images have these versions of the layout by turns."""

    def __init__(self, folder, program, options=(), layouts=(3, 2)):
        self.folder = pathlib.Path(folder)
        self.image, self.mount, self.local = self.folder / 'image', self.folder / 'mount', self.folder / 'local'
        self.options = ['rw', f'denials={self.folder}/denials', *options]
        words = self.folder / 'words'
        words.mkdir()
        (words / 'inofs').symlink_to(pathlib.Path(program).resolve())
        self.environment = {**os.environ, 'PATH': f'{words}:{os.environ["PATH"]}'}
        self.mount.mkdir()
        self.layouts, self.versions, self.version = layouts, itertools.cycle(layouts), None
        self.large = False

    def fresh(self):
        """A new image in place of the last one, and an empty directory."""
        self.image.unlink(missing_ok=True)
        shutil.rmtree(self.local, ignore_errors=True)
        self.local.mkdir(mode=0o755)
        self.version = next(self.versions)
        self.run('inofs', self.layout().verb, self.image, *self.layout().numbers, check=True, stdout=subprocess.DEVNULL)

    def layout(self):
        """That of the image; of version 3 a large one where that is asked for."""
        return LARGE if self.large and self.version == 3 else LAYOUTS[self.version]

    def keeps_times(self):
        """Whether the image has the times of what is on it."""
        return self.version >= 3

    def run(self, *words, **options):
        return subprocess.run(words, env=self.environment, **options)

    def begin(self):
        self.run(TOP / 'mount/mount.inofs', self.image, self.mount, '-o', ','.join(self.options), check=True)

    def end(self):
        """Unmounts it. Where the machine has much to do, what the option commit asks for may have it in use for longer than umount waits."""
        for _ in range(UNMOUNTS):
            ended = self.run(TOP / 'mount/umount.inofs', self.mount)
            if ended.returncode == 0 or not is_mounted(self.mount):
                break
            time.sleep(1)
        ended.check_returncode()

    def check(self):
        """The line of a check."""
        return self.run('inofs', 'check', self.image, stdout=subprocess.PIPE, stderr=subprocess.STDOUT, text=True).stdout.strip()

    def processes(self, words):
        """Those whose command line has these words."""
        for place in pathlib.Path('/proc').glob('[0-9]*/cmdline'):
            try:
                if words.encode() in place.read_bytes():
                    yield int(place.parent.name)
            except OSError:
                pass

    def server(self):
        """The process that has the kernel's end of this mount open, and no other: the one whose words name the image."""
        return next(self.processes(f'fuse\0{self.image}\0'), None)

    def gone(self):
        """Waits until nothing is mounted any more, and neither the server runs nor the one that looks after it: both name the image."""
        for _ in range(SECONDS * 100):
            if not is_mounted(self.mount) and next(self.processes(f'\0{self.image}\0'), None) is None:
                return True
            time.sleep(0.01)
        return False

    def sides(self):
        return (self.mount, self.local)
