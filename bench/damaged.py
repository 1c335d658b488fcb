"""Damaged images: a check and a mount agree on each, and what is clean is served."""
import itertools
import random
import re
import struct

from failing import EIO, ENOMEM, Outcome, demand, told
from images import (CLEAN, FINDING, LOOK, SECTOR, TABLE, clean, content_of, damage, layout, make_image, make_pending, put, restore, run,
                    sector_of, text_of)

EVERY_CALL = (
    'spawn 0 0; spawn 1000 100 5,6; statfs; 1 umask 0000; 1 open / r; 1 readdir 0; 1 stat /d; 1 lstat /l; 1 readlink /l; '
    '1 access /d/f rw-; 2 access /d rwx; 1 getacl /d default; 1 getacl /d/f access; 1 open /d/f rw; 1 read 1 4096; '
    '1 lseek 1 end -1; 1 write 1 hello; 1 fstat 1; 1 ftruncate 1 7000; 1 open /big r; 1 lseek 2 set 6000; 1 read 2 4096; '
    '1 truncate /big 100; 1 chmod /d 0751; 1 chown /d/f 1000 100; 1 setacl /d access u::rwx,u:7:r-x,g::r-x,m::rwx,o::r-x; '
    '1 setacl /d default u::rwx,g::r-x,o::---; 1 open /d/new wcx 0600; 1 write 3 new; 1 fsync 3; 1 mkdir /e 0755; '
    '1 mkdir /e/e 0755; 1 rename /e/e /d/e; 1 link /d/f /e/f; 1 symlink /d/f /e/l; 1 unlink /d/f; 1 rename /big /e/big; '
    '1 chdir /e; 1 stat ..; 1 unlink l; 1 rmdir /d/e; 1 rmdir /e; 2 open /two rwc 0644; 2 exit; 1 close 1; sync; 1 exit; '
    'statfs').split('; ')
FULL = (
    'spawn 0 0; 1 umask 0000; 1 mkdir /d 0755; 1 setacl /d default u::rwx,u:1001:rwx,g::r-x,m::rwx,o::---; '
    '1 open /d/f wc 0640; 1 write 0 hello; 1 open /big wc 0644; 1 lseek 1 set 6140; 1 write 1 hello; 1 symlink d/f /l; '
    '1 link /d/f /g; 1 setacl /g access u::rw-,u:7:rw-,g::r--,m::rw-,o::---; 1 mkdir /d/e 0755; 1 open /gone wc 0600; '
    '1 write 2 gone; 1 fsync 2').split('; ')
# /big is written past the blocks that its indirect sector has, and its last block is the last of all.
LEVELS = FULL + ['1 lseek 1 set 71678', '1 write 1 hello', '1 lseek 1 set 8460287', '1 write 1 x', '1 fsync 1']
GOING = ['spawn 0 0', '1 open /gone w', '1 unlink /gone', '1 mkdir /d/e/h 0700', '1 rename /g /d/e/g', '1 fsync 0']
REPLY = re.compile(r'ok|(pid|fd|at|wrote) \d+|umask [0-7]{4}|(data|target) \S+|granted \S+|acl \S+|list( \d+:\S+)+|'
                   r'ino \d+ (file|dir|link) [0-7]{4} links \d+ uid \d+ gid \d+ size \d+|free \d+ blocks \d+ inodes|'
                   r'error [A-Z0-9]+ \d+|denied (EACCES 13|EPERM 1) walk [12] step \d+ need .+ rule \S+')
# Many names in a directory: more than those of 140 blocks, where a block has two.
MANY = FULL + ['1 mkdir /many 0755', *(f'1 link /d/f /many/{number}' for number in range(300)), '1 fsync 1']
# A commit of more targets than the commit sector has, behind another one: over blocks that are in use, since what was free needs no log.
LARGE = ['spawn 0 0', '1 open /big w', *(['1 write 0 ' + 'x' * 4000] * 25), '1 fsync 0',
         '1 lseek 0 set 0', *(['1 write 0 ' + 'y' * 4000] * 25), '1 fsync 0']


def agreed(lines):
    """In which way the image ends: clean, and then a mount serves the lines, or with a finding, and then a mount tells it."""
    content = content_of('image')
    check = run(['check', 'image'])
    demand(len(check.replies) == 1 and check.error == '', f'check: {told(check)}')
    demand(content_of('image') == content, 'check has changed the image')
    mount = run(['run', 'image'], text_of(lines))
    found = FINDING.fullmatch(check.replies[0])
    if not found:
        demand(CLEAN.fullmatch(check.replies[0]) and check.status == 0, f'check: {told(check)}')
        served(mount, lines)
        return 'clean, and served'
    fault = 'NotAFileSystem' if found[1] == '1' else f'Damaged {found[1]} {found[2]}'
    demand(check.status == 1, f'check: {told(check)}')
    demand(mount == Outcome([], 3, f'mount: {fault}'), f'{check.replies[0]}, and a mount: {told(mount)}')
    demand(content_of('image') == content, 'a mount that is refused has changed the image')
    return 'a finding, and not mounted'


def served(mount, lines):
    """Each line was answered by a reply of the rules that is no want of memory and no fault of the device."""
    demand(mount.status == 0 and mount.error == '' and len(mount.replies) == len(lines), f'clean, and a mount: {told(mount)}')
    for line, reply in zip(lines, mount.replies):
        demand(REPLY.fullmatch(reply) and reply not in (ENOMEM, EIO), f'{line}: {reply}')
    clean(['no'])


def cut_to(content, sectors):
    """The image, with these sectors alone."""
    return SECTOR * sectors, {at: part for at, part in content[1].items() if at < SECTOR * sectors}


def cut_images():
    base, count = content_of('base'), layout().sectors
    for sectors in range(0, count, count // 1024):
        put('image', cut_to(base, sectors))

        def judge():
            check = run(['check', 'image'])
            demand(check == Outcome(['finding 1 0'], 1, ''), told(check))
            return agreed([])
        TABLE.case('Damage: cut to fewer sectors', f'{sectors} sectors', judge)
    restore('base')
    with open('image', 'ab') as image:
        image.write(b'x')

    def longer():
        way = agreed(LOOK)
        with open('image', 'rb') as image:
            image.seek(SECTOR * count)
            demand(image.read() == b'x', 'the byte is gone')
        demand(way == 'clean, and served', way)
        return way
    TABLE.case('Damage: one byte more', 'one byte more', longer)


def each_byte(kind, name, sectors, lines):
    """Each byte of these sectors of an image set to 0 and to 255; on a large image the first 32 of a sector and each seventh, to what it
    isn't."""
    base = content_of(name)
    for sector in sectors:
        part = sector_of(base, sector)
        for place, value in itertools.product(range(SECTOR), (0, 255)):
            if layout().header and (place > 31 and place % 7 or part[place] == value):
                continue
            damage(base, {SECTOR * sector + place: value})
            TABLE.case(kind, f'sector {sector}, byte {place} set to {value}', lambda: agreed(lines))


def stored(content, inode):
    """The bytes of an inode."""
    return sector_of(content, layout().table + inode // 4)[128 * (inode % 4):][:128]


def with_double_indirect(content):
    """The first inode that has a double indirect sector."""
    return next(inode for inode in range(64) if struct.unpack_from('<I', stored(content, inode), 88)[0])


def numbers_in(content, sector):
    return struct.unpack('<128I', sector_of(content, sector))


def sectors_of_pointers(content, lists):
    """Those of the inode that has a double indirect sector: its indirect sector, that one, and the sectors that this one names."""
    indirect, double = struct.unpack_from('<2I', stored(content, with_double_indirect(content)), 84)
    listed = [number for number in numbers_in(content, double) if number]
    demand(indirect and len(listed) == lists, f'{indirect} and {double}, with {listed}')
    return [indirect, double, *listed]


def single_bytes():
    here = layout()
    used = [0, 1, here.inode_bitmap, here.block_bitmap, here.table, here.table + 1, here.data, here.data + 1, here.data + 2]
    each_byte('Damage: single bytes', 'base', used, [])
    sectors = sectors_of_pointers(content_of('levels'), 2)
    each_byte('Damage: single bytes of pointers', 'levels', sectors, EVERY_CALL)


# ---- damage of what version 3 alone has

def log_area(number):
    """The first sector of a log area, which is its header's."""
    return 2 + number * (126 + 129 * layout().header)


def is_large(content):
    """A commit is sealed whose first content isn't in its place yet: in the second log area, with more targets than its sector has."""
    count, target = struct.unpack_from('<2I', sector_of(content, 1), 4)
    logged = sector_of(content, log_area(1) + layout().header)
    return count > 0x8000_0000 + 126 and sector_of(content, target) != logged


def set_bit(sectors, first, number, value):
    """Sets the bit of a number in a bitmap."""
    sector, bit = sectors[first + number // 4096], number % 4096
    sector[bit // 8] = sector[bit // 8] & ~(1 << bit % 8) | value << bit % 8


class Sectors(dict):
    """The sectors of an image, to be changed."""

    def __init__(self, content):
        super().__init__({at // SECTOR: bytearray(part) for at, part in content[1].items()})
        self.length = content[0]

    def __missing__(self, number):
        return self.setdefault(number, bytearray(SECTOR))

    def content(self):
        return self.length, {SECTOR * number: bytes(part) for number, part in self.items() if any(part)}


def make_far(name, start):
    """The image with its large file under the last number of an inode, and the last block of that in the last sector."""
    content, here = content_of(start), layout()
    sectors, inode, last = Sectors(content), with_double_indirect(content), here.inodes - 1
    for number, value in ((last, stored(content, inode)), (inode, bytes(128))):
        sectors[here.table + number // 4][128 * (number % 4):128 * (number % 4) + 128] = value
        set_bit(sectors, here.inode_bitmap, number, int(any(value)))
    names = sectors[struct.unpack_from('<I', stored(content, 1), 36)[0]]
    slot = next(at for at in range(0, SECTOR, here.slot) if struct.unpack_from('<I', names, at)[0] == inode)
    struct.pack_into('<I', names, slot, last)
    pointers = sectors_of_pointers(content, 2)[-1]
    block = numbers_in(content, pointers)[-1]
    struct.pack_into('<I', sectors[pointers], SECTOR - 4, here.sectors - 1)
    sectors[here.sectors - 1][:], sectors[block][:] = sector_of(content, block), bytes(SECTOR)
    set_bit(sectors, here.block_bitmap, block, 0)
    set_bit(sectors, here.block_bitmap, here.sectors - 1, 1)
    put(name, sectors.content())


def bytes_of_version_3():
    """The header and the commit sector of a large commit, the ends of bitmaps, table and pointers, and the pointers of a directory."""
    here = layout()
    make_image('many', MANY)
    make_pending('large', 'full', LARGE, is_large)
    make_far('far', 'levels')
    for name in ('many', 'large', 'far'):
        restore(name)
        TABLE.case('Damage: none', name, lambda: agreed(EVERY_CALL))
    each_byte('Damage: single bytes of a large commit', 'large', [1, log_area(1), log_area(1) + here.header], EVERY_CALL)
    ends = [here.block_bitmap - 1, here.table - 1, here.data - 1, sectors_of_pointers(content_of('levels'), 2)[-1], here.sectors - 1]
    each_byte('Damage: single bytes at the ends', 'far', ends, EVERY_CALL)
    sectors = sectors_of_pointers(content_of('many'), 1)
    each_byte('Damage: single bytes of pointers to names', 'many', sectors, EVERY_CALL)


# ---- damage of several bytes

def changes_of(base, chance):
    """1 to 64 bytes changed, of one to three of the parts that are used: superblock and commit sector, log, bitmaps, inodes, data."""
    here = layout()
    log = [*range(2, 8), *range(log_area(1), log_area(1) + 8)] if here.header else range(2, 20)
    parts = [range(2), log, range(here.inode_bitmap, here.table), range(here.table, here.table + 16), range(here.data, here.data + 34)]
    parts, changes = chance.sample(parts, chance.randint(1, 3)), {}
    for _ in range(chance.choice([1, 2, 4, chance.randint(1, 64)])):
        sector, place = chance.choice(chance.choice(parts)), chance.randrange(SECTOR)
        changes[SECTOR * sector + place] = sector_of(base, sector)[place] ^ chance.choice([1 << chance.randrange(8), chance.randint(1, 255)])
    return changes


def make_damaged():
    """The images that are damaged so."""
    make_image('full', FULL)
    make_pending('stopped', 'full', GOING)
    for name in ('full', 'stopped', 'levels'):
        restore(name)
        TABLE.case('Damage: none', name, lambda: agreed(EVERY_CALL))


def random_images(count, seed, names):
    bases = [content_of(name) for name in names]
    for number in range(count):
        chance = random.Random(f'{seed} {number}')
        base = bases[number % len(bases)]
        damage(base, changes_of(base, chance))
        TABLE.case('Damage: 1 to 64 bytes', f'image {number} of seed {seed}', lambda: agreed(EVERY_CALL))
