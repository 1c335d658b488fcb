"""Snapshots of images by mount/inofs-snapshot: under load, beside processes that are named alike, and where a copy fails or is ended."""
import contextlib
import fcntl
import os
import pathlib
import shutil
import signal
import stat
import subprocess
import time

from mounts import TOP

RECORDS = pathlib.Path('/run/inofs')
SYSTEM_PATH = '/usr/sbin:/usr/bin:/sbin:/bin'
FILES = 8  # which the load writes by turns, each with the number of its turn
SECONDS = 10  # for what comes at once
LONG, SHORT = 60, 1  # of a copy that is ended, and of one that goes on behind a kill
OTHER_COPY = 'mount --bind "$0" "$1" && shift && exec "$@"'


def snapshot(mounted, image, copy):
    return mounted.run(TOP / 'mount/inofs-snapshot', image, copy, capture_output=True, text=True)


def refusal(mounted, image, copy):
    """The status, and what was said last."""
    said = snapshot(mounted, image, copy)
    return said.returncode, said.stderr.strip().rsplit(': ', 1)[-1]


def stands_still(process):
    return pathlib.Path(f'/proc/{process}/stat').read_text().rsplit(') ', 1)[1][0] == 'T'


def goes_on(server):
    """Whether it does. From then on it does, so that nothing waits for ever here."""
    stood = stands_still(server)
    os.kill(server, signal.SIGCONT)
    return not stood


def comes(work):
    """Whether it is so within some seconds."""
    end = time.monotonic() + SECONDS
    while time.monotonic() < end:
        if work():
            return True
        time.sleep(0.005)
    return False


def turn_in(path):
    return int.from_bytes(path.read_bytes(), 'big')


@contextlib.contextmanager
def load_on(folder):
    """A process that writes some files by turns, all of them with 1, then with 2, and so on."""
    files = [os.open(folder / f'f{number}', os.O_WRONLY | os.O_CREAT) for number in range(FILES)]
    writer = os.fork()
    if writer == 0:
        turn = 1
        while True:
            for file in files:
                os.pwrite(file, turn.to_bytes(8, 'big'), 0)
            turn += 1
    for file in files:
        os.close(file)
    comes(lambda: turn_in(folder / f'f{FILES - 1}') > 0)
    try:
        yield
    finally:
        os.kill(writer, signal.SIGKILL)
        os.waitpid(writer, 0)


def is_of_one_moment(turns, least):
    """Whether files are as one write of the load has left them, and not those of an earlier turn than this."""
    return sorted(turns, reverse=True) == turns and turns[0] - turns[-1] <= 1 and turns[0] >= least


def looked_at(mounted, copy):
    """What a copy has: the turns of the load, and the file that was synced."""
    place = mounted.folder / 'mount of a copy'
    place.mkdir()
    mounted.run(TOP / 'mount/mount.inofs', copy, place, '-o', 'ro', check=True)
    seen = [turn_in(place / f'f{number}') for number in range(FILES)], (place / 'synced').read_text()
    mounted.run(TOP / 'mount/umount.inofs', place, check=True)
    place.rmdir()
    return seen


def under_load(mounted, told):
    """A copy of an image that is written has one moment of it, all that was done before, and its server goes on."""
    copy, server = mounted.folder / 'copy', mounted.server()
    (mounted.mount / 'synced').write_text('kept')
    with load_on(mounted.mount):
        before = turn_in(mounted.mount / 'f0')
        said = snapshot(mounted, mounted.image, copy)
        told.compare('Snapshot', 'the server goes on', None, goes_on(server), True)
        behind = turn_in(mounted.mount / 'f0')
        seen = said.returncode, said.stdout.startswith(f'{copy}: clean files'), said.stderr
        told.compare('Snapshot', 'its status and line', None, seen, (0, True, ''))
        told.compare('Snapshot', 'the load goes on', None, comes(lambda: turn_in(mounted.mount / 'f0') > behind), True)
    told.compare('Snapshot', 'the server', None, mounted.server(), server)
    told.compare('Snapshot', 'mode of the copy', None, oct(stat.S_IMODE(copy.stat().st_mode)), '0o600')
    turns, synced = looked_at(mounted, copy)
    told.compare('Snapshot', f'turns of the load in it, {turns}, behind {before}', None, is_of_one_moment(turns, before), True)
    told.compare('Snapshot', 'what was synced', None, synced, 'kept')
    content = copy.read_bytes()
    seen = refusal(mounted, mounted.image, copy), copy.read_bytes() == content
    told.compare('Snapshot', 'a copy that exists', None, seen, ((1, 'exists'), True))
    copy.unlink()


def failing(mounted, told):
    """A copy that fails leaves nothing, and a server that goes on."""
    small, server = mounted.folder / 'small', mounted.server()
    small.mkdir()
    mounted.run('mount', '-t', 'tmpfs', '-o', 'size=64k', 'tmpfs', small, check=True)
    (mounted.mount / 'large').write_bytes(os.urandom(1 << 20))
    told.compare('Snapshot', 'where there is no space', None, refusal(mounted, mounted.image, small / 'copy'), (1, "it can't be copied"))
    told.compare('Snapshot', 'what that leaves', None, (goes_on(server), list(small.iterdir())), (True, []))
    mounted.run('umount', small, check=True)
    small.rmdir()
    (mounted.folder / 'copy.part').touch()
    told.compare('Snapshot', 'a part that exists', None, refusal(mounted, mounted.image, mounted.folder / 'copy'), (1, 'exists'))
    (mounted.folder / 'copy.part').unlink()
    own = refusal(mounted, mounted.image, mounted.mount / 'copy')
    told.compare('Snapshot', 'to its own mount', None, own, (1, "is on the image's own mount"))
    told.compare('Snapshot', 'what was refused left no part', None, [path.name for path in mounted.mount.glob('copy*')], [])


@contextlib.contextmanager
def decoy_of(mounted):
    """A process that looks like the server to who asks for words alone."""
    decoy = mounted.folder / 'decoy/inofs'
    decoy.parent.mkdir()
    decoy.write_text('#!/bin/sh\nsleep 600 & trap "kill $!" TERM\nwait\n')
    decoy.chmod(0o755)
    process = subprocess.Popen([decoy, 'fuse', mounted.image])
    try:
        yield process.pid
    finally:
        process.terminate()
        process.wait()
        shutil.rmtree(decoy.parent)


def record_of(image):
    return next(path.parent for path in RECORDS.glob('*/image') if path.read_text() == f'{image}\n')


def decoys(mounted, told):
    """A process that is named alike isn't stopped, nor one whose number stands in the record with another moment."""
    server, named = mounted.server(), record_of(mounted.image) / 'server'
    right = named.read_text()
    told.compare('Snapshot', 'the number in the record', None, int(right.split()[0]), server)
    with decoy_of(mounted) as decoy, slow_copy(mounted, LONG) as copying:
        told.compare('Snapshot', 'who stands still', None, (stands_still(server), stands_still(decoy)), (True, False))
        told.compare('Snapshot', 'beside another', None, refusal(mounted, mounted.image, mounted.folder / 'other'),
                     (1, 'another snapshot of it is being made'))
        copying.terminate()
        copying.wait()
        named.write_text(f'{decoy} {right.split()[1]}\n')
        seen = refusal(mounted, mounted.image, mounted.folder / 'copy')
        told.compare('Snapshot', "another one's number", None, seen, (1, 'its server has ended'))
        told.compare('Snapshot', 'who goes on then', None, (goes_on(server), goes_on(decoy)), (True, True))
    named.write_text(right)


def heed_signals():
    """No shell heeds a signal that was ignored when it began, as nohup(1) and a shell's background have it."""
    for number in (signal.SIGHUP, signal.SIGINT, signal.SIGTERM):
        signal.signal(number, signal.SIG_DFL)


@contextlib.contextmanager
def slow_copy(mounted, seconds):
    """A snapshot whose copying, by another cp(1) in its own namespace of mounts, takes so long: from when that has begun."""
    copy, slow, begun = shutil.which('cp', path=SYSTEM_PATH), mounted.folder / 'slow', mounted.folder / 'begun'
    slow.write_text(f'#!/bin/sh\n: > "{begun}"\nexec sleep {seconds}\n')
    slow.chmod(0o755)
    words = ['unshare', '-m', '--propagation', 'private', 'sh', '-c', OTHER_COPY, slow, os.path.realpath(copy),
             TOP / 'mount/inofs-snapshot', mounted.image, mounted.folder / 'copy']
    process = subprocess.Popen(words, env=mounted.environment, stdout=subprocess.DEVNULL, stderr=subprocess.DEVNULL, preexec_fn=heed_signals)
    try:
        comes(begun.exists)
        yield process
    finally:
        process.kill()
        process.wait()
        slow.unlink()
        begun.unlink(missing_ok=True)


def ended(mounted, told):
    """A snapshot that is ended leaves a server that goes on; behind a kill it does once the copying has ended."""
    server = mounted.server()
    for number in (signal.SIGHUP, signal.SIGINT, signal.SIGTERM):
        with slow_copy(mounted, LONG) as copying:
            stood = stands_still(server)
            copying.send_signal(number)
            status = copying.wait(SECONDS)
            left = [path.name for path in mounted.folder.glob('copy*')]
            seen = stood, status, goes_on(server), left
            told.compare('Snapshot', f'ended by {number.name}', None, seen, (True, 128 + number, True, []))
    with slow_copy(mounted, SHORT) as copying:
        copying.kill()
        told.compare('Snapshot', 'killed: the server goes on', None, (copying.wait(), comes(lambda: not stands_still(server))), (-9, True))
        goes_on(server)
    (mounted.folder / 'copy.part').unlink()


def elsewhere(mounted, told):
    """An image that only another namespace has mounted is copied as the commits have left it, and that is said."""
    words = ['unshare', '-m', '--propagation', 'private', TOP / 'mount/mount.inofs', mounted.image, mounted.mount]
    mounted.run(*words, check=True)
    said = snapshot(mounted, mounted.image, mounted.folder / 'copy')
    seen = said.returncode, said.stderr.strip().rsplit(': ', 1)[-1]
    told.compare('Snapshot', 'of what is mounted elsewhere', None, seen, (0, 'what was done last may be missing'))
    os.kill(int((record_of(mounted.image) / 'pid').read_text()), signal.SIGTERM)
    told.compare('Snapshot', 'that mount behind SIGTERM', None, mounted.gone(), True)
    (mounted.folder / 'copy').unlink()


def unmounted(mounted, told):
    """An image that isn't mounted is copied, and one that something else has locked is refused."""
    copy = mounted.folder / 'copy'
    said = snapshot(mounted, mounted.image, copy)
    told.compare('Snapshot', 'of what is not mounted', None, (said.returncode, copy.read_bytes() == mounted.image.read_bytes()), (0, True))
    copy.unlink()
    with mounted.image.open('rb') as image:
        fcntl.flock(image, fcntl.LOCK_EX)
        told.compare('Snapshot', 'of what is in use', None, refusal(mounted, mounted.image, copy), (1, 'in use, and no mount of it is known'))
    told.compare('Snapshot', 'of no image', None, refusal(mounted, '/dev/null', copy), (1, 'no such image'))
    told.compare('Snapshot', 'what that leaves', None, list(mounted.folder.glob('copy*')), [])


def damaged(mounted, told):
    """Of an image with a finding no copy is left."""
    with mounted.image.open('r+b') as file:
        file.write(b'\xff')
    told.compare('Snapshot', 'of a damaged image', None, snapshot(mounted, mounted.image, mounted.folder / 'copy').returncode, 1)
    told.compare('Snapshot', 'what is left of that', None, list(mounted.folder.glob('copy*')), [])


def snapshots(mounted, told):
    mounted.fresh()
    mounted.begin()
    under_load(mounted, told)
    failing(mounted, told)
    if os.path.basename(os.path.realpath(shutil.which('cp', path=SYSTEM_PATH))) == 'cp':
        decoys(mounted, told)
        ended(mounted, told)
    else:
        print('helpers: snapshots that are ended: not tried, cp is part of another program here')
    mounted.end()
    elsewhere(mounted, told)
    unmounted(mounted, told)
    damaged(mounted, told)
