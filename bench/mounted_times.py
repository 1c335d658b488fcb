"""Times: which of them a call sets, and that a mount gives back those that were there at the unmount, to the nanosecond.

A line of the script is `CALL WORD.. -> WANTED`, one of the calls below in a directory on either side, and what is wanted: an error, or
the paths of which it sets times. Their letters are a for access, m for modification and c for change, and capitals where what it sets
isn't the time of the call. All others have to stay. The path `(n)` is what is held open as n. Before a line stands in brackets the
number in docs/MOUNT.md of a difference that the directory may have there.

On images of layout version 2 the server keeps the times, and after a mount all are the mount's.
"""
import os
import pathlib
import re
import shutil
import subprocess
import time

from mounted_cached import flags_of, in_file, set_list
from mounted_stamps import Spans, stamps_of, statuses, times_of
from mounted_steps import performed
from mounts import ACLS, attempt

SCRIPT = (pathlib.Path(__file__).resolve().parent / 'mounted.times').read_text()
LINE = re.compile(r'(?:\[(\d+)\] )?(.*) ->(?: (.*))?')
HELD = {}  # open files, by their directory and name
FIRST, LAST = 1, (1 << 64) - 1  # the times that an image keeps


# ---- which times a call sets

def data_of(text):
    return b'' if text == '-' else text.encode()


def hold(path):
    HELD[os.path.split(path)] = os.open(path, os.O_RDWR)


def held(path):
    return HELD[os.path.split(path)]


CALLS = {
    'make': lambda path, text='-': in_file(path, flags_of('WRONLY|CREAT|EXCL'), lambda file: os.write(file, data_of(text))),
    'open': lambda path, flags: in_file(path, flags_of(flags), lambda file: None),
    'read': lambda path: in_file(path, os.O_RDONLY, lambda file: os.read(file, 100)), 'list': os.listdir,
    'write': lambda path, text: in_file(path, os.O_WRONLY, lambda file: os.write(file, data_of(text))),
    'cut': lambda path, size: in_file(path, os.O_WRONLY, lambda file: os.ftruncate(file, int(size))),
    'fsync': lambda path: in_file(path, os.O_RDONLY, os.fsync), 'truncate': lambda path, size: os.truncate(path, int(size)),
    'mkdir': os.mkdir, 'rmdir': os.rmdir, 'unlink': os.unlink, 'chmod': lambda path, mode: os.chmod(path, int(mode, 8)),
    'chown': lambda path, user, group: os.chown(path, int(user), int(group)),
    'acl': set_list, 'noacl': lambda path, kind: os.removexattr(path, ACLS[kind]),
    'touch': os.utime, 'utime': lambda path, *times: os.utime(path, ns=tuple(map(int, times))),
    'lutime': lambda path, *times: os.utime(path, ns=tuple(map(int, times)), follow_symlinks=False),
    'hold': hold, 'pread': lambda path: os.pread(held(path), 100, 0),
    'pwrite': lambda path, text: os.pwrite(held(path), data_of(text), 0), 'ftruncate': lambda path, size: os.ftruncate(held(path), int(size)),
}
BY_PATHS = {'rename': os.rename, 'link': os.link}


def call(folder, name, *words):
    if name == 'symlink':
        return os.symlink(words[0], f'{folder}/{words[1]}')
    if name in BY_PATHS:
        return BY_PATHS[name](*(f'{folder}/{word}' for word in words))
    return CALLS[name](f'{folder}/{words[0]}', *words[1:])


def looked_at(folder):
    """What is below a directory, and what is held open of it."""
    return {**statuses(folder), **{f'({name})': os.fstat(file) for (place, name), file in HELD.items() if place == folder}}


def letters_of(spans, line, seen, before):
    """The times that the call has set, the last one of the spans."""
    told = spans.all_told(seen)
    set_ones = {field: stamp for field, stamp in stamps_of(seen).items() if told[field] == line or stamp != before.get(field)}
    return ''.join(field[0] if told[field] == line else field[0].upper() for field in set_ones)


def effect(spans, folder, line):
    """The error of a call in a directory, and the paths of which it sets times."""
    before = {seen.st_ino: stamps_of(seen) for seen in looked_at(folder).values()}
    spans.begin(line)
    answer = attempt(call, folder, *line.split(' ')[1:])
    spans.end()
    error = answer if type(answer) is str and answer.startswith('E') else ''
    found = {path: letters_of(spans, line, seen, before.get(seen.st_ino, {})) for path, seen in looked_at(folder).items()}
    return error, {path: letters for path, letters in found.items() if letters}


def wanted_of(text):
    """The same, of the text in a line."""
    if re.fullmatch('E[A-Z]+', text or ''):
        return text, {}
    return '', dict(part.split(' ') for part in (text or '').split(', ') if part)


def by_reading_left_out(found, wanted):
    """What a call sets in the directory, but access times that it isn't wanted to: reading moves them there, as a look at the tree is."""
    error, letters = found
    kept = {path: [one for one in text if one not in 'aA' or one in wanted[1].get(path, '')] for path, text in letters.items()}
    return error, {path: ''.join(text) for path, text in kept.items() if text}


def moving(mounted, told):
    """Performs the script."""
    folders = [str(side / 'moving') for side in mounted.sides()]
    for folder in folders:
        os.mkdir(folder)
    spans, lines = Spans(), [line for line in SCRIPT.split('\n')[1:] if line and line[0] != '#']
    for number, line in enumerate(lines):
        known, words, text = LINE.fullmatch(line).groups()
        wanted = wanted_of(text)
        ours, theirs = (effect(spans, folder, f'{number} {words}') for folder in folders)
        told.compare('which times', line, None, ours, wanted)
        theirs = by_reading_left_out(theirs, wanted)
        if theirs != wanted and not known:
            told.fault(f'which times: {line}\n    the directory beside it: {theirs}')
    while HELD:
        os.close(HELD.popitem()[1])


# ---- times that are given

SECOND = 1_000_000_000
SOURCE = {'f': (1_400_000_001, 1_500_000_000_123_456_789), 'd/g': (SECOND, 981_173_106_000_000_001),
          'd': (2 * SECOND, 1_600_000_000_999_999_999), 'l': (3 * SECOND, 1_234_567_890_987_654_321)}
FILES = {name: SOURCE[name] for name in ('f', 'd/g')}
WRITTEN = {name: (None, modification) for name, (_, modification) in SOURCE.items()}
# What user ann does in a directory of hers, and the access and modification time that paths have from then on. None: any.
GIVEN = [
    ('touch -d @981173106.123456789 both', {'both': (981_173_106_123_456_789, 981_173_106_123_456_789)}),
    ('touch -d @5.000000005 one; touch -a -d @7.000000001 one', {'one': (7_000_000_001, 5_000_000_005)}),
    ('touch -d @5.000000005 other; touch -m -d @8.999999999 other', {'other': (5_000_000_005, 8_999_999_999)}),
    ('touch -r other same', {'same': (5_000_000_005, 8_999_999_999)}),
    ('mkdir d; touch d/x; touch -d @1000000000.000000001 d', {'d': (1_000_000_000_000_000_001, 1_000_000_000_000_000_001)}),
    ('ln -s nowhere l; touch -h -d @1234567890.987654321 l', {'l': (1_234_567_890_987_654_321, 1_234_567_890_987_654_321)}),
    ('touch -d @0.000000001 first', {'first': (FIRST, FIRST)}), ('touch -d @0 zero', {'zero': (FIRST, FIRST)}),
    ('touch -d @-1.5 before', {'before': (FIRST, FIRST)}),
    ('touch -d "1901-12-13 20:45:52 UTC" older', {'older': (FIRST, FIRST)}),
    ('touch -d @4000000000.5 signed', {'signed': (4_000_000_000_500_000_000, 4_000_000_000_500_000_000)}),
    ('touch -d @18446744073.709551615 last', {'last': (LAST, LAST)}),
    ('touch -d @18446744073.709551616 behind', {'behind': (LAST, LAST)}), ('touch -d @99999999999 far', {'far': (LAST, LAST)}),
    ('cp -p SOURCE/f copied', {'copied': SOURCE['f']}),
    ('cp -a SOURCE all', {f'all/{name}': stamps for name, stamps in {**WRITTEN, **FILES}.items()}),
    ('mkdir out; tar --format=posix -C SOURCE -cpf - . | tar -C out -xpf -',
     {f'out/{name}': stamps for name, stamps in WRITTEN.items()}),
    ('cp -a SOURCE away; mv away/d elsewhere; mv away/f moved; ln moved linked',
     {'moved': SOURCE['f'], 'linked': SOURCE['f'], 'elsewhere': WRITTEN['d'], 'elsewhere/g': SOURCE['d/g']}),
]


def make_source(folder):
    """A tree of user ann's in the machine's own file system."""
    (folder / 'd').mkdir(parents=True)
    for name in ('f', 'd/g'):
        (folder / name).write_text(name)
    (folder / 'l').symlink_to('nowhere')


def give_times(folder):
    """Its times are given: to read it moves some."""
    for name, stamps in SOURCE.items():
        os.chown(folder / name, 1000, 100, follow_symlinks=False)
        os.utime(folder / name, ns=stamps, follow_symlinks=False)


def compare_given(home, told, when):
    for command, paths in GIVEN:
        for path, wanted in paths.items():
            seen = attempt(os.lstat, home / path)
            found = seen if type(seen) is str else (seen.st_atime_ns if wanted[0] else None, seen.st_mtime_ns)
            told.compare(f'times that are given, {when}', f'{path}: {command}', None, found, wanted)


def given(mounted, told):
    """Times that user ann gives are told, and are there after a mount."""
    source, home = mounted.folder / 'source', mounted.mount / 'ann'
    shutil.rmtree(source, ignore_errors=True)
    make_source(source)
    home.mkdir()
    os.chown(home, 1000, 100)
    for command, _ in GIVEN:
        give_times(source)
        answer = performed('ann', command.replace('SOURCE', str(source)), home)
        told.compare('times that are given', command, None, answer, ('', 0))
    compare_given(home, told, 'at once')
    yield
    compare_given(home, told, 'after a mount')


# ---- what tools do by times

def lacks(tool):
    if not shutil.which(tool):
        print(f'times: {tool}: not tried, it is not here', flush=True)
        return True
    return False


def output(*words, **how):
    return subprocess.run(words, stdout=subprocess.PIPE, stderr=subprocess.STDOUT, text=True, **how).stdout


def by_rsync(mounted, told):
    """A copy to the mount and one from it: each copies nothing the second time."""
    if lacks('rsync'):
        return
    source, copy, back = mounted.folder / 'synced', mounted.mount / 'synced', mounted.folder / 'back'
    for folder in (source, back):
        shutil.rmtree(folder, ignore_errors=True)
    for number in range(40):
        path = source / f'd{number % 4}' / f'f{number}'
        path.parent.mkdir(parents=True, exist_ok=True)
        path.write_text('text' * number)
        os.utime(path, ns=(number, SECOND * SECOND + number * 1001))
    (source / 'l').symlink_to('d1/f1')
    pairs = (source, copy), (copy, back)
    copied = [output('rsync', '-a', '--itemize-changes', f'{one}/', other) for one, other in pairs]
    told.compare('rsync -a', 'files that are copied first', None, [text.count('>f') for text in copied], [40, 40])
    yield
    copied = [output('rsync', '-a', '--itemize-changes', f'{one}/', other) for one, other in reversed(pairs)]
    wanted = ['', ''] if mounted.keeps_times() else copied
    told.compare('rsync -a', 'what it changes the second time, with a mount between', None, copied, wanted)
    if not mounted.keeps_times():
        seen = [text.count('f..t') for text in copied]
        told.compare('rsync -a', 'files whose times it sees moved by a mount', None, seen, [40, 40])


def by_make(mounted, told):
    """What is built stays so, and what was to be built anew is."""
    if lacks('make'):
        return
    folder = mounted.mount / 'made'
    folder.mkdir()
    (folder / 'Makefile').write_text('all: a.out b.out\n%.out: %.in\n\tcp $< $@\n')
    for name in ('a.in', 'b.in'):
        (folder / name).write_text(name)
    make = lambda: sorted(output('make', '-C', folder, '--no-print-directory').split('\n'))
    told.compare('make', 'the first time', None, make(), ['', 'cp a.in a.out', 'cp b.in b.out'])
    (folder / 'b.in').write_text('more')
    yield
    if mounted.keeps_times():
        told.compare('make', 'one source was written behind the building, before a mount', None, make(), ['', 'cp b.in b.out'])
        told.compare('make', 'then', None, make(), ['', "make: Nothing to be done for 'all'."])


def by_git(mounted, told):
    """A status reads no file of the work tree."""
    if lacks('git') or lacks('strace'):
        return
    folder, trace = mounted.mount / 'work', mounted.folder / 'trace'
    files = [f'd{number % 5}/f{number}' for number in range(50)]
    for name in files:
        path = folder / name
        path.parent.mkdir(parents=True, exist_ok=True)
        path.write_text(name)
        os.utime(path, ns=(SECOND, SECOND * SECOND + 1))  # long before the index, since what is as new as that has to be read
    how = {'env': {'PATH': os.environ['PATH'], 'HOME': str(mounted.folder), 'GIT_CONFIG_NOSYSTEM': '1'}, 'cwd': mounted.folder}
    named = '-c', 'init.defaultBranch=main', '-c', 'user.name=a', '-c', 'user.email=a@b', '-c', 'gc.auto=0'
    for words in ('init -q', 'add .', 'commit -qm all', 'status --short'):
        told.compare('git', words, None, output('git', *named, '-C', folder, *words.split(), **how), '')
    yield
    words = 'strace', '-f', '-e', 'trace=open,openat,openat2', '-o', trace, 'git', '-C', folder, 'status', '--short'
    told.compare('git status', 'after a mount', None, output(*words, **how), '')
    opened = re.findall(r'open\w*\([^"]*"(?:\./)?([^"]*)"', trace.read_text())
    told.compare('git status', 'the index is opened', None, any(name.endswith('.git/index') for name in opened), True)
    read = len(set(files).intersection(opened))
    told.compare('git status', 'files that it opens after a mount', None, read, 0 if mounted.keeps_times() else len(files))


# ---- what a mount finds

def begin(mounted, mounts):
    """Mounts the image: the name of that in the spans of the mounts."""
    name = f'mount {len(mounts.names) + 1}'
    mounts.begin(name)
    mounted.begin()
    os.statvfs(mounted.mount)  # by then the server has begun
    mounts.end()
    return name


def run_script(mounted, *lines):
    script = mounted.folder / 'script'
    script.write_text('spawn 0 0\n' + ''.join(f'1 {line}\n' for line in lines))
    return mounted.run('inofs', 'run', mounted.image, script, stdout=subprocess.PIPE, text=True).stdout.split('\n')[1:-1]


def unknown(mounted, told, mounts):
    """The times of a new root, and of what a script has made, aren't known: they are each mount's. Then they are given."""
    told.compare('times', 'a script', None, run_script(mounted, 'open /s wc 0644'), ['fd 0'])
    for _ in range(2):
        name = begin(mounted, mounts)
        for path in ('.', 's'):
            seen = set(mounts.all_told(os.lstat(mounted.mount / path)).values())
            told.compare('times that are not known', f'{path} at {name}', None, seen, {name})
        if name == 'mount 1':
            mounted.end()
    for path in ('.', 's'):
        os.utime(mounted.mount / path)


def kept(mounted, told, mounts):
    """All times that are there at an unmount are there after a mount; where the server keeps them they are the mount's."""
    before = times_of(mounted.mount)
    yield
    after = times_of(mounted.mount)
    if mounted.keeps_times():
        for path in sorted({*before, *after}):
            told.compare('times after a mount', path, None, after.get(path), before.get(path))
    else:
        seen = {mounts.told(stamp) for stamps in after.values() for stamp in stamps.values()}
        told.compare('times after a mount', 'all', None, seen, {mounts.names[-1]})


def scripted(mounted, told, mounts):
    """A script tells no time: what it sets isn't known, whatever was."""
    before = stamps_of(os.lstat(mounted.mount / 'moving/f'))
    mounted.end()
    told.compare('times', 'a script', None, run_script(mounted, 'truncate /moving/f 3', 'chmod /moving/d 0700'), ['ok', 'ok'])
    name = begin(mounted, mounts)
    after, folder = (mounts.all_told(os.lstat(mounted.mount / path)) for path in ('moving/f', 'moving/d'))
    wanted = {'access': before['access'] if mounted.keeps_times() else name, 'modification': name, 'change': name}
    told.compare('times that a script sets', 'of a file that it cuts', None, after, wanted)
    told.compare('times that a script sets', 'of a directory whose mode it changes', None, folder['change'], name)


def on_image(mounted, told):
    """All of it on one image: what is done before a mount, and what is looked at after it."""
    mounts = Spans()
    unknown(mounted, told, mounts)
    moving(mounted, told)
    works = [given] * mounted.keeps_times() + [by_rsync, by_make, by_git]
    works = [*(work(mounted, told) for work in works), kept(mounted, told, mounts)]
    for work in works:
        next(work, None)
    mounted.end()
    begin(mounted, mounts)
    for work in reversed(works):
        next(work, None)
    scripted(mounted, told, mounts)
    mounted.end()
    if not mounted.check().startswith('clean '):
        told.fault(f'the image with times: {mounted.check()}')


def times(mounted, told):
    for _ in mounted.layouts:
        mounted.fresh()
        on_image(mounted, told)
