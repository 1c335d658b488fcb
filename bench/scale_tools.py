"""The rows of bench/scale in which tools work on trees of files: git, rsync, tar and make."""
import itertools
import os
import time

from mounts import ACLS, TOP, acl_bytes, other_nodes, tree_of
from scale_files import SHOWN, compare_all, content, write_file
from scale_places import Skipped, command, needs

CLONED, REVISIONS_APART = 20_000, 40
SETTINGS = ['safe.directory=*', 'gc.auto=0', 'maintenance.auto=false', 'user.name=ann', 'user.email=ann@localhost']
COPIED, IN_TAR, IN_ONE = 10_000, 5_000, 50
SOURCES = 200
FIRST_FILES, IN_FOLDER, FIRST_NAMES, FIRST_BYTES = 20_000, 100, 10_000, 8_000_000
COPIED_BY_DD = 500  # MiB
EARLIER = 1_500_000_000  # seconds since 1970
LISTS = ['u::rwx,u:1001:r-x,g::r-x,m::rwx,o::---', 'u::rw-,g::r--,g:200:rw-,m::rw-,o::r--',
         'u::rwx,u:1000:rwx,u:1002:---,g::r-x,g:7:--x,m::r-x,o::r-x']


# ---- trees

def compare_trees(turn, title, ours, wanted):
    """Compares all of two trees but times."""
    wrong = list(other_nodes(tree_of(ours), tree_of(wanted)))
    turn.demand(not wrong, f'{title}: {len(wrong)} differences: {wrong[:SHOWN]}')


def make_tree(root, count, lists=()):
    """Files in directories, and some links, of several owners, modes and times, one of five with one of the lists."""
    for number in range(count):
        folder = root / f'd{number // IN_ONE}'
        if number % IN_ONE == 0:
            folder.mkdir()
            if lists:
                os.setxattr(folder, ACLS['default'], acl_bytes(lists[number // IN_ONE % len(lists)]))
        path = folder / f'f{number}'
        if number % 25 == 1:
            path.symlink_to(f'f{number - 1}')
        else:
            write_file(path, content(number))
            os.chown(path, number % 3 * 1000, number % 2 * 100)
            path.chmod((0o644, 0o600, 0o755, 0o400)[number % 4])
            if lists and number % 5 == 0:
                os.setxattr(path, ACLS['access'], acl_bytes(lists[number % len(lists)]))
        os.utime(path, (EARLIER + number, EARLIER + number), follow_symlinks=False)


def mount_again(turn):
    """Mounts again: whether a time that was set is there then, which an image may not keep."""
    os.utime(turn.root, (EARLIER, EARLIER))
    turn.again()
    return int(os.stat(turn.root).st_mtime) == EARLIER


# ---- git

def git(place, *words, given=''):
    """What git prints that has no settings but these, and does nothing by itself."""
    environment = {'PATH': os.environ['PATH'], 'HOME': '/', 'GIT_CONFIG_NOSYSTEM': '1', 'GIT_CONFIG_GLOBAL': '/dev/null'}
    settings = itertools.chain.from_iterable(('-c', setting) for setting in SETTINGS)
    return command('git', '-C', place, *settings, *words, given=given, env=environment)


def make_repository(path, count):
    """A repository of one commit, which has as many revisions of this one side by side as make so many files."""
    git(path, 'init', '-q', '--bare')
    objects = git(TOP, 'rev-parse', '--path-format=absolute', '--git-path', 'objects')
    (path / 'objects/info/alternates').write_text(objects)
    entries, files = [], 0
    for revision in itertools.cycle(git(TOP, 'rev-list', 'HEAD').split()[::REVISIONS_APART]):
        if files >= count:
            break
        files += len(git(path, 'ls-tree', '-r', '--name-only', revision).splitlines())
        entries.append(f'040000 tree {git(path, "rev-parse", revision + "^{tree}").strip()}\tr{len(entries)}\n')
    tree = git(path, 'mktree', given=''.join(entries)).strip()
    git(path, 'update-ref', 'HEAD', git(path, 'commit-tree', '-m', 'Put revisions side by side', tree).strip())


def compare_blobs(turn, title, clone):
    """Compares the files with what the index says of them, whatever their times are."""
    wanted = {line[3]: line[1] for line in (line.split(maxsplit=3) for line in git(clone, 'ls-files', '--stage').splitlines())}
    paths = ''.join(f'{clone}/{path}\n' for path in wanted)
    found = git(clone, 'hash-object', '--no-filters', '--stdin-paths', given=paths).split()
    wrong = [path for path, name in zip(wanted, found, strict=True) if wanted[path] != name]
    turn.demand(not wrong, f'{title}: other bytes in {len(wrong)} of {len(wanted)} files, {wrong[:SHOWN]}')
    turn.same(f'{title}: git fsck', git(clone, 'fsck', '--no-progress', '--no-dangling'), '')


def clones(turn):
    needs('git')
    if not (TOP / '.git').exists():
        raise Skipped('there is no history here')
    turn.start()
    count, clone = turn.part(CLONED), turn.root / 'clone'
    repository = turn.once('repository', lambda path: make_repository(path, count))
    with turn.timed('git clone'):
        git(turn.root, 'clone', '-q', f'file://{repository}', clone)
    with turn.timed('git status'):
        turn.same('git status', git(clone, 'status', '--short'), '')
    names = git(clone, 'ls-files').splitlines()
    turn.demand(len(names) >= count, f'git ls-files: {len(names)} files')
    compare_blobs(turn, 'cloned', clone)
    for name in names[::20]:
        with open(clone / name, 'ab') as file:
            file.write(name.encode())
    with turn.timed('git status of changes'):
        turn.same('files that git status says are changed', len(git(clone, 'status', '--short').splitlines()), len(names[::20]))
    with turn.timed('git commit of changes'):
        git(clone, 'commit', '-q', '-a', '-m', 'Change some')
    with turn.timed('git gc'):
        git(clone, 'gc', '-q')
    compare_blobs(turn, 'after git gc', clone)
    turn.again()
    with turn.timed('git status after a mount'):
        turn.same('git status after a mount', git(clone, 'status', '--short'), '')
    compare_blobs(turn, 'after a mount', clone)
    with turn.timed('removed by rm -r'):
        command('rm', '-r', clone)
    turn.end()


# ---- what a first user does

def make_files(turn):
    paths = [f'{turn.root}/d{number // IN_FOLDER}/f{number}' for number in range(turn.part(FIRST_FILES))]
    with turn.timed('files made'):
        for number, path in enumerate(paths):
            if number % IN_FOLDER == 0:
                os.mkdir(os.path.dirname(path))
            write_file(path, content(number))
    return list(enumerate(paths))


def make_names(turn):
    folder, wanted = turn.root / 'names', [f'name {number:05}' for number in range(turn.part(FIRST_NAMES))]
    folder.mkdir()
    with turn.timed('names made'):
        for name in wanted:
            write_file(folder / name, b'')
    with turn.timed('names listed'):
        turn.same('names listed', sorted(os.listdir(folder)), wanted)


def first_jobs(turn):
    """A clone of this repository, small files, a long directory and a file of 8 MB, all on one image of 1 GiB."""
    needs('git')
    if not (TOP / '.git').exists():
        raise Skipped('there is no history here')
    turn.start('1G', 65_536)
    clone, long = turn.root / 'clone', turn.root / 'long'
    with turn.timed('git clone of this repository'):
        git(turn.root, 'clone', '-q', f'file://{TOP}', clone)
    paths = make_files(turn)
    make_names(turn)
    text = os.urandom(FIRST_BYTES)
    with turn.timed('8 MB written'):
        write_file(long, text)
    turn.again()
    compare_blobs(turn, 'cloned', clone)
    compare_all(turn, 'files', paths, content)
    turn.demand(long.read_bytes() == text, 'other bytes in the file of 8 MB')
    turn.end()


# ---- dd

def make_bytes(folder, megabytes):
    with (folder / 'bytes').open('wb') as file:
        for _ in range(megabytes):
            file.write(os.urandom(1 << 20))


def long_copies(turn):
    """Long writes that nobody asks to be kept, of zeros and of other bytes, each to a new image."""
    needs('dd', 'cmp')
    megabytes = turn.part(COPIED_BY_DD)
    source = turn.once('bytes', lambda folder: make_bytes(folder, megabytes)) / 'bytes'
    for title, given in (('zeros', '/dev/zero'), ('bytes', source)):
        turn.start()
        copy = turn.root / title
        with turn.timed(f'dd of {title}'):
            command('dd', f'if={given}', f'of={copy}', 'bs=1M', f'count={megabytes}')
        turn.again()
        command('cmp', '-n', megabytes << 20, copy, given)
        turn.end()


# ---- rsync

def rsync(source, copy, options='-a'):
    """How many files it copies, and all that it does."""
    done = command('rsync', options, '--itemize-changes', f'{source}/', f'{copy}/')
    return sum(line.startswith('>f') for line in done.splitlines()), done


def change_some(source):
    """Changes one file of twenty: which."""
    changed = sorted(path for path in source.glob('*/f*') if not path.is_symlink())[::20]
    for path in changed:
        path.write_bytes(path.read_bytes()[::-1] + b'changed')
    return changed


def copies(turn):
    needs('rsync')
    turn.start()
    source, copy = turn.once('source', lambda path: make_tree(path, turn.part(COPIED))), turn.root / 'copy'
    with turn.timed('rsync -a'):
        rsync(source, copy)
    compare_trees(turn, 'copied', copy, source)
    with turn.timed('again'):
        turn.same('rsync again', rsync(source, copy)[1], '')
    lasts = mount_again(turn)
    compare_trees(turn, 'copied, after a mount', copy, source)
    with turn.timed('again after a mount'):
        count, done = rsync(source, copy)
    turn.tell('files copied again after a mount', count)
    turn.demand(not lasts or done == '', f'rsync after a mount: {done[:200]}')
    compare_trees(turn, 'copied again after a mount', copy, source)
    copy_changes(turn, source, copy)


def copy_changes(turn, source, copy):
    """Copies what has changed."""
    changed = change_some(source)
    with turn.timed('again where one file of twenty has changed'):
        turn.same('files that rsync copies where some have changed', rsync(source, copy)[0], len(changed))
    compare_trees(turn, 'copied where some have changed', copy, source)
    turn.again()
    compare_trees(turn, 'those that have changed, after a mount', copy, source)
    turn.end()


def backups(turn):
    """From a tree with lists and hard links to a directory, once more where some has changed, and back to a new image."""
    needs('rsync')
    turn.start()
    made, backup = turn.root / 'made', turn.once(f'backup of {turn.place.name}', lambda path: None)
    made.mkdir()
    make_tree(made, turn.part(COPIED), LISTS)
    for path in sorted(made.glob('*/f*0')):
        os.link(path, f'{path}.too')
    with turn.timed('rsync -aHAX from it'):
        rsync(made, backup, '-aHAX')
    turn.again()
    turn.same('backup again after a mount', rsync(made, backup, '-aHAX')[1], '')
    changed = change_some(made)
    with turn.timed('again where one file of twenty has changed'):
        turn.same('files of the backup that have changed', rsync(made, backup, '-aHAX')[0], len(changed))
    compare_trees(turn, 'backup', made, backup)
    turn.end()
    turn.start()
    with turn.timed('back'):
        rsync(backup, turn.root / 'made', '-aHAX')
    compare_trees(turn, 'back', made, backup)
    turn.again()
    turn.same('back again after a mount', rsync(backup, made, '-aHAX')[1], '')
    compare_trees(turn, 'back, after a mount', made, backup)
    turn.end()


# ---- tar

def lists_of(root):
    """What getfacl says of each path."""
    return sorted(command('getfacl', '-R', '-n', '.', cwd=root).split('\n\n'))


def compare_lists(turn, title, ours, wanted):
    wrong = [pair for pair in itertools.zip_longest(lists_of(ours), lists_of(wanted)) if pair[0] != pair[1]]
    turn.demand(not wrong, f'{title}: getfacl says otherwise of {len(wrong)}, {wrong[:1]}')
    compare_trees(turn, title, ours, wanted)


def archives(turn):
    needs('tar', 'getfacl')
    turn.start()
    source = turn.once('listed', lambda path: make_tree(path, turn.part(IN_TAR), LISTS))
    there, back = turn.root / 'there', turn.once(f'back from {turn.place.name}', lambda path: None)
    packed = turn.once('packed', lambda path: None) / 'tar'
    command('tar', '--acls', '-C', source, '-cf', packed, '.')
    there.mkdir()
    with turn.timed('tar --acls -x'):
        command('tar', '--acls', '-C', there, '-xpf', packed)
    compare_lists(turn, 'tar -x', there, source)
    turn.again()
    with turn.timed('getfacl -R after a mount'):
        lists_of(there)
    compare_lists(turn, 'tar -x after a mount', there, source)
    with turn.timed('tar --acls -c'):
        command('tar', '--acls', '-C', there, '-cf', packed, '.')
    command('tar', '--acls', '-C', back, '-xpf', packed)
    compare_lists(turn, 'there and back', there, back)
    turn.end()


# ---- make

MAKEFILE = """objects = $(patsubst %.c,%.o,$(wildcard *.c))
program: $(objects)
\tcc -o $@ $^
%.o: %.c all.h
\tcc -O1 -c -o $@ $<
"""


def write_sources(root, count):
    """A program of so many files, which prints the sum of their numbers."""
    (root / 'Makefile').write_text(MAKEFILE)
    (root / 'all.h').write_text(''.join(f'int f{number}(int);\n' for number in range(count)))
    headers = '#include <stdio.h>\n#include "all.h"\n'
    for number in range(count):
        (root / f'f{number}.c').write_text(f'{headers}int f{number}(int n) {{ return n + {number}; }}\n')
    calls = ''.join(f'    n = f{number}(n);\n' for number in range(count))
    (root / 'main.c').write_text(f'{headers}int main(void) {{\n    int n = 0;\n{calls}    printf("%d\\n", n);\n}}\n')


def make(root):
    """How many commands it runs."""
    return command('make', '-j4', cwd=root).count('cc -')


def builds(turn):
    needs('make', 'cc')
    turn.start()
    count, root = turn.part(SOURCES), turn.root / 'sources'
    root.mkdir()
    write_sources(root, count)
    with turn.timed('make'):
        turn.same('commands of make', make(root), count + 2)
    run = lambda: command(root / 'program').strip()
    turn.same('what the program prints', run(), str(count * (count - 1) // 2))
    with turn.timed('make again'):
        turn.same('commands of make again', make(root), 0)
    before = tree_of(root)
    lasts = mount_again(turn)
    turn.demand(tree_of(root) == before, f'made, after a mount: {list(other_nodes(tree_of(root), before))[:SHOWN]}')
    with turn.timed('make after a mount'):
        commands = make(root)
    turn.tell('commands of make after a mount', commands)
    turn.demand(not lasts or commands == 0, f'make after a mount: {commands} commands')
    turn.same('what the program prints after a mount', run(), str(count * (count - 1) // 2))
    time.sleep(1.1)  # some keep times in seconds
    (root / 'f1.c').touch()
    with turn.timed('make where one file has changed'):
        turn.same('commands of make where one file has changed', make(root), 2)
    turn.end()


ROWS = {'first': first_jobs, 'dd': long_copies, 'git': clones, 'rsync': copies, 'backup': backups, 'tar': archives, 'make': builds}
