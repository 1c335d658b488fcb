"""Where a mount lands, how it goes, and what its helpers leave: among users who rename directories, with binds, and behind kills."""
import os
import pathlib
import shutil
import signal
import stat
import subprocess
import threading
import time

from mounted_strangers import COMMIT, helper_of, refused
from mounts import TOP, as_user, is_mounted

RECORDS = pathlib.Path('/run/inofs')
MOUNTS = 12  # beside a user who renames what lies above
# CAP_DAC_OVERRIDE and CAP_SYS_PTRACE, all that the server needs.
NEEDED = 1 << 1 | 1 << 19


def seconds(work):
    began = time.monotonic()
    answer = work()
    return answer, time.monotonic() - began


def unmount(mounted, place):
    return mounted.run(TOP / 'mount/umount.inofs', place, stderr=subprocess.PIPE, text=True).returncode


def at_once(mounted, place):
    """Whether an unmount of this place succeeds within a second."""
    status, took = seconds(lambda: unmount(mounted, place))
    return status, took < 1


def binds(mounted, told):
    """An unmount that isn't the last one doesn't wait for the server, and the last one does."""
    other = mounted.folder / 'other'
    other.mkdir()
    for first, last in ((other, mounted.mount), (mounted.mount, other)):
        mounted.begin()
        mounted.run('mount', '--bind', mounted.mount, other, check=True)
        told.compare('places', 'unmount of one of two', None, (at_once(mounted, first), mounted.server() is None), ((0, True), False))
        told.compare('places', 'unmount of the last one', None, (unmount(mounted, last), mounted.server()), (0, None))
    other.rmdir()


def namespaces(mounted, told):
    """In another namespace of mounts it is still there."""
    mounted.begin()
    holder = subprocess.Popen(['unshare', '-m', '--propagation', 'private', 'sleep', '60'])
    # Before it sleeps the namespace may still share unmounts with this one.
    while pathlib.Path(f'/proc/{holder.pid}/comm').read_text() != 'sleep\n':
        time.sleep(0.01)
    told.compare('places', 'unmount beside another namespace', None, at_once(mounted, mounted.mount), (0, True))
    holder.kill()
    holder.wait()
    told.compare('places', 'the server when that namespace has ended', None, mounted.gone(), True)


def killed_helper(mounted, told):
    """A helper that was killed leaves a record, for which nobody waits, and which the next mount takes away."""
    before = set(RECORDS.iterdir())
    mounted.begin()
    left = set(RECORDS.iterdir()) - before
    told.compare('places', 'records of one mount', None, len(left), 1)
    os.kill(helper_of(mounted), signal.SIGKILL)
    told.compare('places', 'unmount behind a killed helper', None, (unmount(mounted, mounted.mount), mounted.gone()), (0, True))
    mounted.begin()
    told.compare('places', 'records that are left', None, left & set(RECORDS.iterdir()), set())
    told.compare('places', 'unmount of the next mount', None, unmount(mounted, mounted.mount), 0)


def closed_records(mounted, told):
    """Who may open a file may hold its lock, for which an unmount waits: so nobody but root opens a record, or their directory."""
    mounted.begin()
    places = [RECORDS, *RECORDS.glob('*/lock')]
    seen = {as_user('ann', lambda place=place: os.open(place, os.O_RDONLY)) for place in places}
    told.compare('places', 'records that a user may open', None, (len(places) > 1, seen), (True, {'EACCES'}))
    mounted.end()


def capabilities(process):
    """Those that a process may have, and those up to which it may get some."""
    status = pathlib.Path(f'/proc/{process}/status').read_text().split('\n')
    return [int(line.split()[1], 16) for line in status if line.startswith(('CapPrm', 'CapBnd'))]


def surroundings(mounted, told):
    if not shutil.which('setpriv'):
        print('places: capabilities of the server: not tried, setpriv is not here')
        return
    mounted.begin()
    wanted = [held & NEEDED for held in capabilities('self')]
    told.compare('places', 'capabilities of the server', None, capabilities(mounted.server()), wanted)
    mounted.end()


def blocks_of(path):
    return os.stat(path).st_blocks * 512 >= os.stat(path).st_size


def reserved(mounted, told):
    """The host has blocks for the whole image from a mount on, but with thin."""
    image = mounted.image
    mounted.fresh()
    if subprocess.run(['fallocate', '-l', str(image.stat().st_size), image], stderr=subprocess.DEVNULL).returncode:
        print('places: blocks of images: not tried, the host sets none aside')
        return
    for options, wanted in (('thin', False), ('reserve', True)):
        mounted.fresh()
        mounted.options.append(options)
        mounted.begin()
        mounted.end()
        mounted.options.pop()
        told.compare('places', f'blocks of the image after a mount with {options}', None, blocks_of(image), wanted)
    for words, wanted in ((('--thin',), False), ((), True)):
        image.unlink()
        mounted.run(TOP / 'mount/mkfs.inofs', '--size', '4M', *words, image, check=True, stdout=subprocess.DEVNULL)
        seen = blocks_of(image), oct(stat.S_IMODE(image.stat().st_mode))
        told.compare('places', f'blocks and mode of an image by mkfs {" ".join(words)}', None, seen, (wanted, '0o600'))
    image.chmod(0o620)
    told.compare('places', 'an image that others may write', None, refused(mounted, 'rw'), (32, 'chmod 600'))
    told.compare('places', 'commit=86401', None, refused(mounted, 'commit=86401'), (32, 'no number of seconds up to 86400'))


def swap_until(ended, above, other):
    """Makes the directory above the mount point by turns a directory and a link to another one."""
    aside = above.with_name('aside')
    while not ended.is_set():
        above.rename(aside)
        above.symlink_to(other)
        time.sleep(0.001)
        above.unlink()
        aside.rename(above)
        time.sleep(0.001)


def mounted_beside(mounted, above, other):
    """Where a mount is made while a user swaps the directory above its place for a link; nowhere where it is refused."""
    ended = threading.Event()
    thread = threading.Thread(target=swap_until, args=(ended, above, other))
    thread.start()
    mounted.run(TOP / 'mount/mount.inofs', mounted.image, above / 'm', stderr=subprocess.DEVNULL)
    ended.set()
    thread.join()
    return {place for place in (above / 'm', other / 'm') if is_mounted(place)}


def swapped(mounted, told):
    """Beside a user who swaps the directory above it the mount is in the directory that was named, or refused."""
    above, other = mounted.folder / 'above', mounted.folder / 'victim'
    for folder in (above, other):
        (folder / 'm').mkdir(parents=True)
    landed = set()
    for _ in range(MOUNTS):
        found = mounted_beside(mounted, above, other)
        landed |= found
        for place in found:
            unmount(mounted, place)
        mounted.gone()
    told.compare('places', f'where {MOUNTS} mounts are whose place is swapped', None, landed - {above / 'm'}, set())
    for folder in (above, other):
        shutil.rmtree(folder)


def renamed(mounted, told):
    """A mount below a directory that is renamed is still committed: what was done a while before the server is killed is there."""
    above = mounted.folder / 'before'
    (above / 'm').mkdir(parents=True)
    mounted.run(TOP / 'mount/mount.inofs', mounted.image, above / 'm', '-o', f'commit={COMMIT}', check=True)
    above = above.rename(mounted.folder / 'after')
    (above / 'm/kept').write_text('x')
    time.sleep(COMMIT + 1)
    os.kill(mounted.server(), signal.SIGKILL)
    told.compare('places', 'the mount of a server that was killed', None, mounted.gone(), True)
    mounted.begin()
    told.compare('places', f'what was done {COMMIT + 1} seconds before, below a directory that was renamed', None, os.listdir(mounted.mount), ['kept'])
    mounted.end()
    shutil.rmtree(above)


def odd_images(mounted, told):
    """What fsck is given may be a link to a pipe, or an image whose name the kernel's list spells otherwise."""
    pipe, link, odd = mounted.folder / 'pipe-of-fsck', mounted.folder / 'link-of-fsck', mounted.folder / '#1 image'
    os.mkfifo(pipe)
    link.symlink_to(pipe)

    def fsck(image):
        said = mounted.run(TOP / 'mount/fsck.inofs', image, stdout=subprocess.PIPE, stderr=subprocess.STDOUT, text=True, timeout=10)
        return said.returncode, said.stdout
    told.compare('places', 'fsck of a link to a pipe', None, fsck(link), (8, f'{link}: image: cannot open\n'))
    mounted.image.rename(odd)
    mounted.run(TOP / 'mount/mount.inofs', odd, mounted.mount, check=True)
    told.compare('places', 'fsck of an image with # in its name', None, fsck(odd), (8, f'{odd} is mounted.\nfsck.inofs: Cannot continue, aborting.\n'))
    mounted.end()
    odd.rename(mounted.image)
    link.unlink()
    pipe.unlink()


def places(mounted, told):
    mounted.fresh()
    for part in (binds, namespaces, killed_helper, closed_records, surroundings, swapped, renamed, odd_images, reserved):
        part(mounted, told)
