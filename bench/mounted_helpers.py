"""What mkfs(8) and fsck(8) call: the helpers' statuses and texts, beside a mounted image and a damaged one. And what is installed, snapshots,
and mounts beside systemd."""
import os
import shutil
import stat
import subprocess

from mounted_installs import installs
from mounted_scopes import scopes
from mounted_snapshots import snapshots
from mounts import ACLS, TOP, acl_bytes, acls_of

ROOT_MODE = 130 * 512 + 128 + 2  # where an image of 1,024 sectors has the mode of inode 1

FINDING = ('finding 4 1\ninode 1: its kind, mode, size and unused bytes have to be as the layout\'s version allows, with inode 0 free and '
           'inode 1 a directory; they are not; nothing is repaired: take the image from a backup\n')
CLEAN = 'clean files 0 dirs 1 links 0 nameless 0 blocks 878 inodes 62 pending no\n'
CLEAN_3 = 'clean files 0 dirs 1 links 0 nameless 0 blocks 1518 inodes 62 pending no\n'
USAGE = 'usage: mkfs.inofs [-v] [--size SIZE | --sectors N] [--inodes N] [--from DIR [--owner UID:GID]] [--thin] IMAGE\n'
BAD_SIZE = 'error: invalid value for \'--size <SIZE>\': 512K to 8G, in bytes or with K, M or G behind\n'
MOUNTED = ' is mounted.\nfsck.inofs: Cannot continue, aborting.\n'
MADE = 'made 1024 sectors 64 inodes 878 free\n'
SMALL = '--sectors', '1024', '--inodes=64'
# Words of mkfs that make an image, the last one of a megabyte, and words that make none.
MAKINGS = [(('--sectors=65536',), 'made 65536 sectors 4096 inodes 64367 free\n'),
           ((), 'made 131072 sectors 4096 inodes 128729 free\n'),
           (('-v', '--inodes', '8192'), 'made 131072 sectors 8192 inodes 127704 free\n'),
           (('--size', '512K', '--inodes', '1784'), 'made 1024 sectors 1784 inodes 64 free\n'),
           (('--size', '1M', '--inodes=64'), 'made 2048 sectors 64 inodes 1518 free\n')]
REFUSALS = [(('--size=1M', '--sectors', '2048'), USAGE), (('--size', '8200M'), BAD_SIZE), (('--size=511K',), BAD_SIZE),
            (('--size', '512K', '--inodes', '1785'), 'mkfs: TooSmall\n')]


def helpers(mounted, told):
    image = mounted.image
    path = f'{image}: '

    def asks(name, *words):
        said = mounted.run(TOP / f'mount/{name}.inofs', *words, stdout=subprocess.PIPE, stderr=subprocess.STDOUT, text=True)
        return said.returncode, said.stdout

    def expect(name, words, status, text):
        told.compare('Helpers', f'{name}.inofs {" ".join(map(str, words))}', None, asks(name, *words), (status, text))

    image.unlink(missing_ok=True)
    expect('mkfs', (*SMALL, image), 0, MADE)
    expect('mkfs', (*SMALL, image), 1, 'image: exists\n')
    expect('fsck', (image,), 0, path + CLEAN)
    expect('fsck', ('-a', '-C', '0', image), 0, path + CLEAN)
    mounted.begin()
    expect('fsck', ('-n', image), 8, str(image) + MOUNTED)
    mounted.end()
    with image.open('r+b') as file:
        file.seek(ROOT_MODE)
        file.write(b'\xff\xff')
    expect('fsck', ('-f', '-y', image), 4, path + FINDING)
    expect('fsck', ('/dev/null',), 8, '/dev/null: image: cannot open\n')
    told.compare('Helpers', 'bad words', None, [asks(*words)[0] for words in (('fsck',), ('fsck', '-x', image), ('mkfs',), ('mkfs', image, image))],
                 [16, 16, 1, 1])
    for words, made in MAKINGS:
        image.unlink()
        expect('mkfs', (*words, image), 0, made)
    expect('fsck', (image,), 0, path + CLEAN_3)
    image.unlink()
    for words, said in REFUSALS:
        expect('mkfs', (*words, image), 1, said)
    told.compare('Helpers', 'what was refused left no file', None, image.exists(), False)
    lists_of_trees(mounted, told, expect)
    for part in (installs, snapshots, scopes):
        part(mounted, told)


def lists_of_trees(mounted, told, expect):
    """What has an access list in a tree is named, and its mode is kept, in which the mask stands as the group's bits."""
    if not shutil.which('getfacl'):
        print('helpers: access lists of a tree: not tried, getfacl is not here')
        return
    tree = mounted.folder / 'tree'
    (tree / 'plain').mkdir(parents=True)
    listed = tree / 'plain/with a list'
    listed.touch()
    mounted.image.unlink(missing_ok=True)
    words = '--size', '1M', '--from', tree, mounted.image
    expect('mkfs', words, 0, '')
    os.setxattr(listed, ACLS['access'], acl_bytes('u::rw-,u:1000:rwx,g::---,m::rwx,o::---'))
    mounted.image.unlink()
    expect('mkfs', words, 1, f'mkfs.inofs: {listed}: of its access list only the mode is kept\n')
    mounted.begin()
    copy = mounted.mount / 'plain/with a list'
    told.compare('Helpers', 'mode and lists of its copy', None, (oct(stat.S_IMODE(copy.stat().st_mode)), acls_of(copy)), ('0o670', {}))
    mounted.end()
    shutil.rmtree(tree)
