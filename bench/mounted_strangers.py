"""What users who don't trust each other, and whoever ends the server, may come to on a mount: each with what is wanted."""
import ctypes
import fcntl
import os
import pathlib
import signal
import stat
import subprocess
import time

from mounted_crowds import crowds
from mounted_denials import denials
from mounts import TOP, as_user, attempt, in_child

LIBC = ctypes.CDLL(None, use_errno=True)
CLONE_NEWUSER = 0x10000000
COMMIT = 5  # seconds, where the mount doesn't say


def with_other_ids(path):
    """A thread of root, which acts on files as a user, looks at what belongs to that user."""
    def work():
        LIBC.setfsgid(100)
        LIBC.setfsuid(1000)
        return pathlib.Path(path).read_text()
    return in_child(work)


def in_namespace(path):
    """Root of a user namespace of its own, in which it is user 0 too, looks at what only a capability lets it read."""
    def work():
        if LIBC.unshare(CLONE_NEWUSER):
            raise OSError(ctypes.get_errno(), 'no namespace')
        pathlib.Path('/proc/self/uid_map').write_text('0 0 1')
        pathlib.Path('/proc/self/setgroups').write_text('deny')
        pathlib.Path('/proc/self/gid_map').write_text('0 0 1')
        return pathlib.Path(path).read_text()
    seen = in_child(work)
    return None if seen in ('EPERM', 'ENOSPC', 'EINVAL', 'ENOSYS') else seen


def by_overlay(mounted):
    """The owner looks at it through overlayfs, which asks as who has mounted that: the process is another one's than the request."""
    place, empty = mounted.folder / 'overlay', mounted.folder / 'empty'
    for folder in (place, empty):
        folder.mkdir()
    options = f'lowerdir={mounted.mount}:{empty}'
    if mounted.run('mount', '-i', '-t', 'overlay', '-o', options, 'overlay', place, stderr=subprocess.DEVNULL).returncode:
        return None
    try:
        return as_user('ann', (place / 'ann/f').read_text)
    finally:
        mounted.run('umount', place, check=True)


def make_private(mounted):
    """A directory and a file of user ann, closed to all others."""
    folder = mounted.mount / 'ann'
    folder.mkdir(mode=0o700)
    (folder / 'f').write_text('hello')
    os.chmod(folder / 'f', 0o600)
    for path in (folder, folder / 'f'):
        os.chown(path, 1000, 100)
    return folder / 'f'


def identities(mounted, told):
    path = make_private(mounted)
    told.compare('identity', 'the owner reads', None, as_user('ann', path.read_text), 'hello')
    told.compare('identity', 'root reads', None, in_child(path.read_text), 'hello')
    told.compare('identity', 'another user reads', None, as_user('bob', path.read_text), 'EACCES')
    told.compare('identity', 'a thread of root that acts on files as the owner reads', None, with_other_ids(path), 'hello')
    for line, seen in (('the owner reads by overlayfs, which asks for root', by_overlay(mounted)),
                       ('root of another user namespace reads', in_namespace(path))):
        if seen is None:
            print(f'identity: {line}: not tried, it is not here')
        else:
            told.compare('identity', line, None, seen, 'EACCES')


def locks(mounted, told):
    """A lock that the caller of mount holds by a descriptor is free once that has closed it, though the server runs."""
    path = mounted.folder / 'lock'
    held = os.open(path, os.O_RDWR | os.O_CREAT)
    os.set_inheritable(held, True)
    fcntl.flock(held, fcntl.LOCK_EX)
    mounted.run(TOP / 'mount/mount.inofs', mounted.image, mounted.mount, '-o', ','.join(mounted.options), check=True, close_fds=False)
    os.close(held)
    other = os.open(path, os.O_RDWR)
    told.compare('descriptors', 'a lock of the caller', None, attempt(fcntl.flock, other, fcntl.LOCK_EX | fcntl.LOCK_NB), None)
    os.close(other)


def refused(mounted, options):
    said = mounted.run(TOP / 'mount/mount.inofs', mounted.image, mounted.mount, '-o', options, stderr=subprocess.PIPE, text=True)
    return said.returncode, said.stderr.strip().rsplit(': ', 1)[-1]


# What mount(8) hands on at a remount besides what is asked: what it has seen of the mount.
SEEN = 'rw,nosuid,nodev,relatime,user_id=0,group_id=0,default_permissions,allow_other,max_read=1048576,uhelper=fuse.inofs'


def flags_of(mounted):
    """What the kernel's list says of the mount."""
    return {flag for line in pathlib.Path('/proc/self/mountinfo').read_text().splitlines() if line.split()[4] == str(mounted.mount)
            for flag in line.split()[5].split(',')}


def options(mounted, told):
    told.compare('options', 'suid,dev', None, {'nosuid', 'nodev'} <= flags_of(mounted), True)
    for option in ('remount,commit=77', 'remount,denials=/dev/null', 'remount,user_id=7'):
        told.compare('options', option, None, refused(mounted, option), (32, 'stays as it is until the next mount'))
    for words in (SEEN, ','.join(mounted.options)):
        for flag in ('ro', 'rw'):
            seen = refused(mounted, f'{words},remount,{flag}'), flag in flags_of(mounted)
            told.compare('options', f'remount,{flag} beside {words.split(",")[:3]}', None, seen, ((0, ''), True))
    mode = stat.S_IMODE((mounted.folder / 'denials').stat().st_mode)
    told.compare('options', 'the mode of the file for denials', None, oct(mode), '0o600')


def denial_files(mounted, told):
    link, pipe = mounted.folder / 'link', mounted.folder / 'pipe'
    link.symlink_to(mounted.folder / 'elsewhere')
    os.mkfifo(pipe)
    told.compare('denials', 'a link', None, refused(mounted, f'denials={link}'), (32, "a link can't have the denials"))
    told.compare('denials', 'a pipe', None, refused(mounted, f'denials={pipe}'), (32, 'no file for denials'))
    told.compare('denials', 'what the link leads to', None, (mounted.folder / 'elsewhere').exists(), False)


def found_after(mounted, end):
    """The names in the root behind a server that was ended so, and the line of a check."""
    end()
    if not mounted.gone():
        return 'the mount stays'
    checked = mounted.check().split()[0]
    mounted.begin()
    names = sorted(path.name for path in mounted.mount.iterdir())
    mounted.end()
    return checked, names


def killed_later(mounted):
    (mounted.mount / 'kept').write_text('x')
    time.sleep(COMMIT + 1)
    os.kill(mounted.server(), signal.SIGKILL)


def device_in(record):
    """The device number of a record's mount; none where its helper has just ended."""
    try:
        return (record / 'device').read_text().strip()
    except FileNotFoundError:
        return None


def helper_of(mounted):
    """The process that looks after the server of this mount: its record is the newest with this number, which mounts before it may have had."""
    device = mounted.mount.stat().st_dev
    number = f'{os.major(device)}:{os.minor(device)}'
    records = [record for record in pathlib.Path('/run/inofs').iterdir() if device_in(record) == number]
    return int((max(records, key=lambda record: record.stat().st_mtime) / 'pid').read_text())


def terminated(mounted):
    (mounted.mount / 'last').write_text('x')
    os.kill(mounted.server(), signal.SIGTERM)
    time.sleep(0.2)
    os.kill(helper_of(mounted), signal.SIGTERM)


def strangers(mounted, told):
    mounted.fresh()
    denial_files(mounted, told)
    mounted.options.append('suid,dev')
    locks(mounted, told)
    options(mounted, told)
    identities(mounted, told)
    told.compare('ends', f'killed {COMMIT + 1} seconds after the last write', None,
                 found_after(mounted, lambda: killed_later(mounted)), ('clean', ['ann', 'kept']))
    mounted.begin()
    told.compare('ends', 'SIGTERM to the server and its helper', None,
                 found_after(mounted, lambda: terminated(mounted)), ('clean', ['ann', 'kept', 'last']))
    mounted.options.pop()
    denials(mounted, told)
    crowds(mounted, told)
