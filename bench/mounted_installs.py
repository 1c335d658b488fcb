"""What a packager does with mount/install: places with odd names, what the installed files say, a mount by them, and taking them away."""
import os
import shutil
import stat
import subprocess

from mounts import TOP

ODD = "a b&c|d'e"
PAGES = 'mount.inofs', 'mount.fuse.inofs', 'umount.fuse.inofs', 'fsck.inofs', 'mkfs.inofs', 'inofs-snapshot'
TEXTS = ('LICENSE-APACHE', 'LICENSE-MIT', 'CHANGELOG.md', 'MOUNT.md', 'RULES.md', 'mnt.mount', 'limits-of-mount.conf', 'limits-of-scope.conf')
PROGRAMS = {'PREFIX': ('bin/inofs', 'sbin/inofs-snapshot'),
            'SBINDIR': ('mount.inofs', 'mount.fuse.inofs', 'umount.fuse.inofs', 'mkfs.inofs', 'fsck.inofs')}
# What is put below each place, and where these are when nothing is said.
FILES = {**PROGRAMS, 'MANDIR': ('man1/inofs.1', *(f'man8/{page}.8' for page in PAGES)), 'DOCDIR': TEXTS, 'UNITDIR': ('inofs-check@.service',),
         'TMPFILESDIR': ('inofs.conf',), 'SYSCONFDIR': ('logrotate.d/inofs',)}
USUAL = {'PREFIX': '/usr/local', 'SBINDIR': '/sbin', 'MANDIR': '/usr/local/share/man', 'DOCDIR': '/usr/local/share/doc/inofs',
         'UNITDIR': '/usr/local/lib/systemd/system', 'TMPFILESDIR': '/usr/local/lib/tmpfiles.d', 'SYSCONFDIR': '/etc'}
UNMOUNTED = 'mount -t tmpfs tmpfs /run/inofs && exec "$0" "$@"'  # a namespace that has no record of a mount


def installed(mounted, words, places, beside=()):
    """The status and the texts of mount/install with these words and places."""
    program = (mounted.folder / 'words/inofs').resolve()
    environment = {'PATH': os.environ['PATH'], 'PROGRAM': str(program), **{name: str(place) for name, place in places.items()}}
    return subprocess.run([*beside, TOP / 'mount/install', *words], env=environment, capture_output=True, text=True)


def wanted_files(places):
    """The paths, and the modes, of what goes to these places."""
    return {f'{places[place]}/{name}': '0o755' if place in PROGRAMS else '0o644' for place, names in FILES.items() for name in names}


def found_files(root):
    """All files below a directory, by the paths that they have in it, with their modes."""
    return {f'/{path.relative_to(root)}': oct(stat.S_IMODE(path.stat().st_mode)) for path in root.rglob('*') if path.is_file()}


def usual_places(mounted, told):
    """A packager's folder gets all files at their usual places, and loses them again, also while an image is mounted."""
    stage = mounted.folder / 'usual'
    seen = installed(mounted, [], {'DESTDIR': stage})
    told.compare('Install', 'the usual places', None, (seen.returncode, found_files(stage)), (0, wanted_files(USUAL)))
    told.compare('Install', 'what is printed', None, set(seen.stdout.splitlines()), {f'{stage}{path}' for path in wanted_files(USUAL)})
    mounted.begin()
    seen = installed(mounted, ['--remove'], {'DESTDIR': stage})
    told.compare('Install', '--remove from the folder beside a mount', None, (seen.returncode, found_files(stage)), (0, {}))
    mounted.end()
    shutil.rmtree(stage)


def unpacked(mounted, told):
    """Installs into a folder at places with odd names, and moves all to these places, as a package does."""
    stage, place = mounted.folder / 'stage', mounted.folder / ODD
    places = {name: place / name.lower() for name in USUAL}
    seen = installed(mounted, [], {'DESTDIR': stage, **places})
    told.compare('Install', 'odd places', None, (seen.returncode, found_files(stage)), (0, wanted_files(places)))
    named = [path.name for path in stage.rglob('*') if path.is_file() and str(stage).encode() in path.read_bytes()]
    told.compare('Install', 'files that name the folder', None, named, [])
    (stage / place.relative_to('/')).rename(place)
    shutil.rmtree(stage)
    return place, places


def pages_and_units(told, places):
    links = [path.read_text().split() for path in (places['MANDIR'] / 'man8').iterdir() if path.read_text().startswith('.so ')]
    told.compare('Install', 'pages that are others', None, [(places['MANDIR'] / page).is_file() for _, page in links], [True] * 3)
    unit = (places['UNITDIR'] / 'inofs-check@.service').read_text().splitlines()
    told.compare('Install', 'what the unit runs', None, f'ExecStart="{places["SBINDIR"]}/fsck.inofs" %f' in unit, True)


def mount_by_them(mounted, told, places):
    """A mount by what was installed, where no program is in PATH: while it is there nothing is taken away."""
    place = places['SBINDIR']

    def status(name, *words):
        return subprocess.run([place / name, *words], env={'PATH': os.environ['PATH']}, capture_output=True).returncode
    told.compare('Install', 'a mount by it', None, status('mount.inofs', mounted.image, mounted.mount), 0)
    told.compare('Install', 'its server', None, os.readlink(f'/proc/{mounted.server()}/exe'), str(places['PREFIX'] / 'bin/inofs'))
    told.compare('Install', 'fsck of what is mounted', None, status('fsck.inofs', mounted.image), 8)
    told.compare('Install', 'a snapshot', None, status('../prefix/sbin/inofs-snapshot', mounted.image, mounted.folder / 'of-installed'), 0)
    seen, before = installed(mounted, ['--remove'], places), wanted_files(places)
    told.compare('Install', '--remove beside a mount', None, (seen.returncode, seen.stderr.endswith(' is mounted\n')), (1, True))
    told.compare('Install', 'what it has left', None, all(os.path.exists(path) for path in before), True)
    told.compare('Install', 'the unmount by it', None, status('umount.fuse.inofs', mounted.mount), 0)
    told.compare('Install', 'fsck behind that', None, status('fsck.inofs', mounted.image), 0)
    made = mounted.folder / 'made by it'
    told.compare('Install', 'mkfs by it', None, (status('mkfs.inofs', '--size', '1M', made), made.stat().st_size), (0, 1 << 20))
    made.unlink()
    (mounted.folder / 'of-installed').unlink()


def taken_away(mounted, told, place, places):
    """All that was installed goes, and nothing else."""
    own = places['DOCDIR'] / 'own'
    own.touch()
    seen = installed(mounted, ['--remove'], places, ['unshare', '-m', '--propagation', 'private', 'sh', '-c', UNMOUNTED])
    left = list(found_files(place))
    told.compare('Install', '--remove without a mount', None, (seen.returncode, left), (0, [f'/{own.relative_to(place)}']))
    shutil.rmtree(place)


def refused(mounted, told):
    """What is refused, and why."""
    place = mounted.folder / 'refused'
    there = {name: place / name for name in USUAL}
    rows = ((['--remove', 'all'], there, 'usage: mount/install [--remove]'), ([], {**there, 'PREFIX': 'usr'}, 'usr: a path from / is wanted'),
            ([], {**there, 'PROGRAM': '/nowhere'}, 'builds it'), ([], {**there, 'PROGRAM': shutil.which('false')}, "bin/inofs doesn't run"))
    for words, places, text in rows:
        seen = installed(mounted, words, places)
        told.compare('Install', f'{words} {text}', None, (seen.returncode, seen.stderr.strip().endswith(text)), (1, True))
    shutil.rmtree(place)


def installs(mounted, told):
    mounted.fresh()
    usual_places(mounted, told)
    place, places = unpacked(mounted, told)
    pages_and_units(told, places)
    mount_by_them(mounted, told, places)
    taken_away(mounted, told, place, places)
    refused(mounted, told)
