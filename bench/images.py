"""Images that the sweeps begin with, and what they have to hold afterwards."""
import collections
import os
import pathlib
import re

from failing import Table, demand, faults, happened, run_program, told

TOP = pathlib.Path(__file__).resolve().parent.parent
PROGRAM = TOP / 'crates/inofs/out/inofs'
SECTOR = 512
TABLE = Table()
BASE = ['spawn 0 0', '1 mkdir /d 0755', '1 open /f wc 0644', '1 write 0 x', '1 symlink t /l']
LOOK = ['spawn 0 0', '1 open / r', '1 readdir 0', '1 open /d r', '1 readdir 1', '1 stat /d/f', '1 open /d/f r', '1 read 2 100']
CLEAN = re.compile(r'clean files \d+ dirs \d+ links \d+ nameless \d+ blocks \d+ inodes \d+ pending (yes|no)')
FINDING = re.compile(r'finding (\d+) (\d+)')

# The images of a version of the layout: the words that make one and what is said of it; how many sectors and inodes it has, where its parts
# begin, how many sectors the header of a log area has, and how many bytes a slot of a directory.
Layout = collections.namedtuple('Layout', 'words made sectors inodes header inode_bitmap block_bitmap table data slot')
LAYOUTS = {
    2: Layout(['mkfs', 'image', '--sectors', '1024', '--inodes', '64'], 'made 1024 sectors 64 inodes 878 free',
              1024, 64, 0, 128, 129, 130, 146, 128),
    3: Layout(['format', 'image', '--size', '64M', '--inodes', '8192'], 'made 131072 sectors 8192 inodes 127704 free',
              131072, 8192, 4, 1286, 1288, 1320, 3368, 256),
}
CHOSEN = [LAYOUTS[2]]


def use(version):
    CHOSEN[0] = LAYOUTS[version]


def layout():
    """That of the images."""
    return CHOSEN[0]


def run(words, script='', fault=None, **how):
    return run_program(PROGRAM, words, script, fault, **how)


def text_of(lines):
    return ''.join(line + '\n' for line in lines)


# ---- files, which are mostly holes

def extents(file):
    """Where a file has something, piece by piece."""
    end, at = os.fstat(file).st_size, 0
    while at < end:
        try:
            start = os.lseek(file, at, os.SEEK_DATA)
        except OSError:  # nothing behind it
            return
        at = os.lseek(file, start, os.SEEK_HOLE)
        yield start, at - start


def content_of(name):
    """What stands in a file: its length, and its sectors that aren't zeros."""
    with open(name, 'rb', 0) as image:
        pieces = [(start, os.pread(image.fileno(), length, start)) for start, length in extents(image.fileno())]
        length = os.fstat(image.fileno()).st_size
    parts = ((start + at, piece[at:at + SECTOR]) for start, piece in pieces for at in range(0, len(piece), SECTOR))
    return length, {at: part for at, part in parts if part.count(0) < len(part)}


def sector_of(content, number):
    """The bytes of a sector."""
    return content[1].get(SECTOR * number, bytes(SECTOR))


def put(name, content):
    """A file with this content."""
    length, parts = content
    with open(name, 'wb') as image:
        image.truncate(length)
        for at, part in parts.items():
            image.seek(at)
            image.write(part)


def copy(name, other):
    put(other, content_of(name))


def restore(name):
    copy(name, 'image')


def damage(content, changes):
    """The image, with these bytes in place of those at their places."""
    put('image', content)
    with open('image', 'r+b') as image:
        for at, value in changes.items():
            image.seek(at)
            image.write(bytes([value]))


def remove_image():
    pathlib.Path('image').unlink(missing_ok=True)


def unchanged(name):
    demand(content_of('image') == content_of(name), 'the image has changed')


# ---- images

def make_image(name, lines):
    """A new image under this name, on which the lines have been run and are answered."""
    remove_image()
    demand(run(layout().words).replies == [layout().made], 'it is not made')
    if lines:
        demand(run(['run', 'image'], text_of(lines)).status == 0, f'{name} is not made')
    copy('image', name)


def make_pending(name, start, lines, wanted=lambda content: True):
    """An image that stopped behind a sealed commit of these lines: the last of the calls at which a wanted one is left by a fault."""
    kept = None
    for fault in faults('call'):
        restore(start)
        run(['run', 'image'], text_of(lines), fault)
        if not happened(fault):
            break
        if any(reply.endswith('pending yes') for reply in run(['check', 'image']).replies):
            content = content_of('image')
            kept = content if wanted(content) else kept
    demand(kept is not None, 'no fault leaves a sealed commit')
    put(name, kept)


def clean(pending):
    """The image is clean, and whether it has a pending commit is one of these."""
    seen = run(['check', 'image'])
    found = len(seen.replies) == 1 and CLEAN.fullmatch(seen.replies[0])
    demand(found and seen.status == 0 and seen.error == '' and found[1] in pending, f'check: {told(seen)}')


def looked_at():
    """What the image holds, as a run finds it that goes through; it is clean then."""
    seen = run(['run', 'image'], text_of(LOOK))
    demand(seen.status == 0 and seen.error == '', f'a mount afterwards: {told(seen)}')
    clean(['no'])
    return seen.replies


STATES = []  # what an image holds once none, one, two, .. of the lines of the first file have been run


def make_states(rows):
    for count in range(len(rows) + 1):
        make_image('state', [line for line, _ in rows[:count]])
        STATES.append(looked_at())


def allowed_after(seen, rows):
    """What an image may hold once a run of the rows has ended so, by how many of them may have been performed.

    None, where nothing was answered and the run didn't begin; as many as were answered, or one more, where it ended early
    and was unmounted; all, once they were answered as they are to be and synced; otherwise any number."""
    wanted = [reply for _, reply in rows]
    synced = next(at for at, (line, _) in enumerate(rows) if line.endswith('fsync 0')) + 1
    if seen.status == 3 and seen.error.startswith(('image:', 'mount:')) or seen.status == 2:
        return STATES[:1]
    if seen.status == 3 and seen.error.startswith('run:'):
        return STATES[len(seen.replies):len(seen.replies) + 2]
    if seen.replies[:synced] == wanted[:synced]:
        return STATES[-1:]
    return STATES


def sound_after(seen, rows):
    """The image is clean, mounts, and holds what it may hold then."""
    clean(['yes', 'no'])
    holds = looked_at()
    demand(holds in allowed_after(seen, rows), f'{told(seen)}, and the image holds {holds}')


def made_or_not(seen):
    """What the making of an image has left: no file, one that is no file system, or a new one."""
    if seen.status == 0:
        clean(['no'])
    elif pathlib.Path('image').exists():
        demand(seen.error == 'mkfs: DiskFault', f'a file is left: {told(seen)}')
        check = run(['check', 'image'])
        demand(check.replies == ['finding 1 0'] or check.status == 0, f'check: {told(check)}')
