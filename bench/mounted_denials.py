"""The file of denials: how many lines a second has, that all others are counted, and what a server does with a file that is there."""
import collections
import os
import stat
import time

from mounts import as_user, attempt

MOST_OF_ONE, FLOOD, FEW = 20, 3000, 3


def refused_chmods(path, count):
    """So many changes of the mode of another user's file, each of which the server refuses; which errors came."""
    def work():
        return sorted({attempt(os.chmod, path, 0o600) for _ in range(count)})
    return work


def told_in(path):
    """Of each second and user the lines of denials, and how many more there were, by the columns of each line."""
    lines, more = collections.Counter(), collections.Counter()
    for line in filter(None, path.read_text().splitlines()):
        columns = line.split(' ')
        if columns[-1] == 'more':
            more[tuple(columns[:2])] += int(columns[6])
        else:
            lines[tuple(columns[:2])] += 1
    return lines, more


def of_user(counts, uid):
    return sum(count for (_, user), count in counts.items() if user == str(uid))


def flood(mounted, told, path, list_of):
    """One user is refused much more than a second tells, and then another one a few times."""
    told.compare('denials', f'{FLOOD} changes of a mode', None, as_user('ann', refused_chmods(path, FLOOD)), "['EPERM']")
    told.compare('denials', f'{FEW} of another user', None, as_user('bob', refused_chmods(path, FEW)), "['EPERM']")
    mounted.end()
    lines, more = told_in(list_of)
    told.compare('denials', 'the most lines of a second and user', None, max(lines.values()), MOST_OF_ONE)
    told.compare('denials', f'lines, and those left out, of {FLOOD} denials', None, of_user(lines, 1000) + of_user(more, 1000), FLOOD)
    told.compare('denials', 'lines of the other user', None, (of_user(lines, 1001), of_user(more, 1001)), (FEW, 0))


def cut_meanwhile(mounted, told, path, list_of):
    """What copies and cuts the file, as logrotate does, needs no stop of the mount: lines go on at its beginning."""
    mounted.begin()
    as_user('ann', refused_chmods(path, FEW))
    os.truncate(list_of, 0)
    time.sleep(1.1)  # a second of its own
    as_user('ann', refused_chmods(path, FEW))
    seen = list_of.read_bytes()
    told.compare('denials', 'lines of a file that was cut', None, (seen.count(b'\n'), seen.count(b'\0')), (FEW, 0))
    mounted.end()


def file_that_is_there(mounted, told, list_of):
    """What it has stays, and from then on it is root's alone."""
    list_of.write_text('before\n')
    list_of.chmod(0o644)
    mounted.begin()
    mounted.end()
    seen = oct(stat.S_IMODE(list_of.stat().st_mode)), list_of.read_text()
    told.compare('denials', 'mode and bytes of a file that was there', None, seen, ('0o600', 'before\n'))


def denials(mounted, told):
    """On the image that is there."""
    list_of, path = mounted.folder / 'denials', mounted.mount / 'of-root'
    list_of.unlink(missing_ok=True)
    with_rules = 'own_rules' in mounted.options
    if not with_rules:
        mounted.options.append('own_rules')
    mounted.begin()
    path.touch()
    flood(mounted, told, path, list_of)
    cut_meanwhile(mounted, told, path, list_of)
    file_that_is_there(mounted, told, list_of)
    if not with_rules:
        mounted.options.pop()
