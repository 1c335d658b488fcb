"""Where systemd runs, a mount outlives what made it. Elsewhere the helper meets a systemd-run(1) of this test's own."""
import os
import pathlib
import shutil
import subprocess

from mounts import TOP

BOOTED = pathlib.Path('/run/systemd/system')
SYSTEM_PATH = '/usr/sbin:/usr/bin:/sbin:/bin'
# Notes its words in a file, and begins what stands behind the hyphens with a variable that shows it.
SCOPE = '#!/bin/sh\nprintf "%s\\n" "$@" > "{}"\nwhile [ "$1" != -- ]; do shift; done\nshift\nIN_SCOPE=yes exec "$@"\n'
NO_SCOPE = '#!/bin/sh\necho no bus >&2\nexit 1\n'
# A namespace of mounts whose first process is in it too, and one of a service's own.
FIRST, OWN = ('-m', '-p', '-f', '--mount-proc'), ('-m',)
# Mounts where systemd seems to run, writes, tells whether the server is in the scope, and unmounts.
MOUNTED = '''
mount -t tmpfs tmpfs /run/systemd && mkdir /run/systemd/system && mount --bind "$1" "$2" || exit
"$3/mount.inofs" "$4" "$5" -o "$6" || exit
echo kept > "$5/in scope"
for record in /run/inofs/*; do
    [ "$(cat "$record/image")" != "$4" ] || read -r server _ < "$record/server"
done
tr '\\0' '\\n' < "/proc/$server/environ" | grep IN_SCOPE
"$3/umount.inofs" "$5"
'''


def beside_systemd(mounted, text, namespace=FIRST):
    """What a mount and an unmount say beside this systemd-run, and its words."""
    fake, real = mounted.folder / 'systemd-run', os.path.realpath(shutil.which('systemd-run', path=SYSTEM_PATH))
    fake.write_text(text.format(mounted.folder / 'words of it'))
    fake.chmod(0o755)
    words = ['unshare', *namespace, '--propagation', 'private', 'sh', '-c', MOUNTED, 'sh', fake, real, TOP / 'mount', mounted.image, mounted.mount,
             ','.join(mounted.options)]
    said = mounted.run(*words, capture_output=True, text=True)
    told = mounted.folder / 'words of it'
    noted = told.read_text().split('\n')[:-1] if told.exists() else []
    told.unlink(missing_ok=True)
    fake.unlink()
    return (said.returncode, said.stdout, said.stderr), noted


def names_at(mounted):
    mounted.begin()
    names = os.listdir(mounted.mount)
    mounted.end()
    return names


def seemingly(mounted, told):
    """The words of systemd-run(1), the server in its scope, and a server without one where it fails."""
    seen, words = beside_systemd(mounted, SCOPE)
    told.compare('systemd', 'a mount in a scope', None, seen, (0, 'IN_SCOPE=yes\n', ''))
    unit = [word for word in words if word.startswith('--unit=inofs-')]
    # Of /a/b the unit is a-b.mount, and what isn't a letter, a digit, a colon, a dot or a low line stands there by its number.
    name = ''.join(c if c.isalnum() or c in ':._' else '-' if c == '/' else f'\\x{ord(c):02x}' for c in str(mounted.mount)[1:])
    record = '/run/inofs/' + ''.join(unit).removeprefix('--unit=inofs-')
    wanted = ['--scope', '--quiet', '--collect', '--slice=system.slice', *unit, f'--description={mounted.image} on {mounted.mount}',
              f'--property=Before={name}.mount', '--', str(TOP / 'mount/mount.inofs'), '--serve', record]
    told.compare('systemd', 'its words', None, words, wanted)
    told.compare('systemd', 'what was written in it', None, names_at(mounted), ['in scope'])
    mounted.fresh()
    seen, words = beside_systemd(mounted, NO_SCOPE)
    said = 'mount.inofs: no bus: the mount ends with this login or service\n'
    told.compare('systemd', 'a mount without its scope', None, (seen, words), ((0, '', said), []))
    told.compare('systemd', 'what was written without', None, names_at(mounted), ['in scope'])
    told.compare('systemd', 'a mount in a namespace of its own', None, beside_systemd(mounted, SCOPE, OWN), ((0, '', ''), []))


def really(mounted, told):
    """A mount that a service has made is there behind that service."""
    words = ['systemd-run', '--quiet', '--service-type=oneshot', '--collect', f'--setenv=PATH={mounted.environment["PATH"]}', '--',
             TOP / 'mount/mount.inofs', mounted.image, mounted.mount]
    told.compare('systemd', 'a mount by a service', None, mounted.run(*words).returncode, 0)
    scope = pathlib.Path(f'/proc/{mounted.server()}/cgroup').read_text()
    told.compare('systemd', 'its scope', None, ('/system.slice/inofs-' in scope, scope.rstrip().endswith('.scope')), (True, True))
    told.compare('systemd', 'the mount behind the service', None, (mounted.mount.is_mount(), os.listdir(mounted.mount)), (True, []))
    mounted.end()


def scopes(mounted, told):
    mounted.fresh()
    if BOOTED.is_dir():
        really(mounted, told)
    elif BOOTED.parent.is_dir() and shutil.which('systemd-run', path=SYSTEM_PATH):
        print('helpers: a mount behind the service that made it: not tried, systemd does not run here')
        seemingly(mounted, told)
    else:
        print('helpers: mounts beside systemd: not tried, it is not here')
