"""Where bench/scale works: a mount of an image of version 3, ext4 on a loop device, and fuse2fs; and what it tells of each."""
import contextlib
import os
import pathlib
import re
import shutil
import signal
import subprocess
import time

from mounts import SECONDS, Layout, Mounted, is_mounted

LONGEST_NAME = 248
SIZE, QUICK_SIZE, INODES = '2G', '256M', 131_072
MB, TRIALS = 1_000_000, 20
# What is told of each image, of its mounts the most. What files take is in use; the image holds inodes, log and bitmaps too, and what is free
# again and was written.
OF_IMAGE = MADE, MOUNT, UNMOUNT, IN_USE, HELD, MEMORY = 'making', 'mount', 'unmount', 'MB in use', 'MB of the image', 'MB of the server'


class Failed(Exception):
    """A command that could not do what it was asked to, with what it said."""


class Skipped(Exception):
    """Why a row can't be tried here."""


def command(*words, given='', **options):
    """What a command prints that is given some text. Where this is interrupted nothing of it goes on."""
    words = [str(word) for word in words]
    with subprocess.Popen(words, stdin=subprocess.PIPE, stdout=subprocess.PIPE, stderr=subprocess.PIPE, text=True,
                          start_new_session=True, **options) as process:
        try:
            printed, said = process.communicate(given)
        except BaseException:
            with contextlib.suppress(ProcessLookupError):
                os.killpg(process.pid, signal.SIGKILL)
            raise
    if process.returncode:
        lines = (said or printed).strip().splitlines()
        raise Failed(f'{" ".join(words)[:200]}: status {process.returncode}: {"; ".join(lines[-3:])[:600]}')
    return printed


def needs(*names):
    for name in names:
        if shutil.which(name) is None:
            raise Skipped(f'{name} is not here')


# ---- what can be mounted

class Inofs(Mounted):
    """A mount of an image of version 3."""
    name, counts = 'inofs', True

    def __init__(self, folder, program):
        folder.mkdir()
        super().__init__(folder, program, layouts=[3])

    def make(self, size, inodes):
        """A new image in place of the last one."""
        self.made = Layout('format', ('--size', size, '--inodes', str(inodes)), size, inodes, LONGEST_NAME)
        self.fresh()

    def layout(self):
        return self.made

    def finding(self):
        """What is wrong with the image, if anything."""
        line = self.check()
        return None if line.startswith('clean ') else line


class Ext4:
    """ext4 on a loop device, with its own defaults."""
    name, counts = 'ext4', True

    def __init__(self, folder, _program):
        folder.mkdir()
        self.image, self.mount = folder / 'image', folder / 'mount'
        self.mount.mkdir()

    def make(self, size, inodes):
        self.image.unlink(missing_ok=True)
        command('mke2fs', '-q', '-t', 'ext4', '-N', inodes, self.image, size)

    def begin(self):
        command('mount', '-o', 'loop', self.image, self.mount)

    def end(self):
        command('umount', self.mount)

    def finding(self):
        try:
            command('e2fsck', '-f', '-n', self.image)
        except Failed as error:
            return str(error)
        return None

    def server(self):
        """No process serves it."""
        return None


class Fuse2fs(Ext4):
    """The same image, served by fuse2fs with its own defaults. What differs there is told and does not count: it keeps access
    lists that say no more than the mode, for one."""
    name, counts = 'fuse2fs', False

    def begin(self):
        subprocess.run(['fuse2fs', self.image, self.mount], check=True)

    def end(self):
        """Its unmount comes back before the server has written everything."""
        super().end()
        for _ in range(SECONDS * 100):
            if self.server() is None:
                return
            time.sleep(0.01)

    def server(self):
        for place in pathlib.Path('/proc').glob('[0-9]*/cmdline'):
            with contextlib.suppress(OSError):
                if place.read_bytes().startswith(f'fuse2fs\0{self.image}\0'.encode()):
                    return int(place.parent.name)
        return None


def most_memory(pid):
    """The most bytes that a process has had."""
    return int(re.search(r'VmHWM:\s+(\d+) kB', pathlib.Path(f'/proc/{pid}/status').read_text())[1]) * 1024


def unmount(place):
    """Others of the machine may be looking at the mount, which is busy then for a moment."""
    for _ in range(TRIALS):
        try:
            return place.end()
        except (Failed, subprocess.CalledProcessError):
            if not is_mounted(place.mount):
                raise
            time.sleep(0.5)
    raise Failed('it stays mounted')


def clear(place):
    """Whatever has happened, nothing of a place stays mounted, and its image goes."""
    with contextlib.suppress(Failed, subprocess.CalledProcessError):
        if is_mounted(place.mount):
            unmount(place)
    if is_mounted(place.mount):
        subprocess.run(['umount', '-i', '-l', place.mount], check=False)
    place.image.unlink(missing_ok=True)


# ---- the work of a row

class Turn:
    """A row's work on one of the places: what each part took, and what was wrong."""

    def __init__(self, row, place, quick, shared, faults):
        self.row, self.place, self.quick, self.shared, self.faults = row, place, quick, shared, faults
        self.root = place.mount / 'work'
        self.figures, self.images, self.size = {}, {}, None

    def part(self, count):
        """So many, or a tenth."""
        return count // 10 if self.quick else count

    def fault(self, text):
        line = f'{self.place.name}: {self.row}: {text}'
        print(f'DIFFERS {line}' if self.place.counts else f'differs, which does not count: {line[:200]}', flush=True)
        if self.place.counts:
            self.faults.append(line)

    def demand(self, holds, text):
        if not holds:
            self.fault(text)

    def same(self, title, ours, wanted):
        self.demand(ours == wanted, f'{title}: {str(ours)[:200]} in place of {str(wanted)[:200]}')

    def tell(self, title, figure):
        self.figures[title] = figure

    def add(self, title, seconds):
        self.tell(title, self.figures.get(title, 0.0) + seconds)

    def of_image(self, title, figure):
        self.images[self.size][title] = max(self.images[self.size].get(title, figure), figure)

    @contextlib.contextmanager
    def timed(self, title):
        start = time.monotonic()
        yield
        self.add(title, time.monotonic() - start)

    def once(self, name, make):
        """What is made in the machine's own file system for the first of the places, and serves them all."""
        path = self.shared / name
        if not path.exists():
            path.mkdir()
            make(path)
        return path

    def start(self, size=None, inodes=None):
        """Mounts a new image."""
        self.size = size or (QUICK_SIZE if self.quick else SIZE)
        self.images[self.size] = {}
        start = time.monotonic()
        self.place.make(self.size, inodes or self.part(INODES))
        self.of_image(MADE, time.monotonic() - start)
        self.begin()
        self.root.mkdir()

    def begin(self):
        start = time.monotonic()
        self.place.begin()
        self.of_image(MOUNT, time.monotonic() - start)

    def end(self):
        """Unmounts, and checks what is left."""
        space = os.statvfs(self.place.mount)
        self.of_image(IN_USE, (space.f_blocks - space.f_bfree) * space.f_frsize // MB)
        server = self.place.server()
        if server is not None:
            self.of_image(MEMORY, most_memory(server) // MB)
        start = time.monotonic()
        unmount(self.place)
        self.of_image(UNMOUNT, time.monotonic() - start)
        self.of_image(HELD, self.place.image.stat().st_blocks * 512 // MB)
        finding = self.place.finding()
        self.demand(finding is None, f'the image: {finding}')

    def again(self):
        """Unmounts and mounts again."""
        self.end()
        self.begin()
