"""Kills of the server at random moments of some work: what the image then holds.

Where an image has times, those of a recovered tree have to be the ones that the mount told when it had that tree, to the nanosecond.
Behind the last change nobody has looked: the directory beside the mount says which times that sets. These have to be one moment of the
change, and all others as before it.
"""
import collections
import os
import random
import signal
import time

from mounted_stamps import Spans, stamps_of, statuses
from mounts import Worker, attempt, other_nodes, tree_of

Killed = collections.namedtuple('Killed', 'answers synced noted span')
Made = collections.namedtuple('Made', 'states answers moved')
Noted = collections.namedtuple('Noted', 'number stamps')
ENDED = 'ENOTCONN', 'ECONNABORTED', 'EIO'  # what is answered where the server has ended
NAMES = [f'{folder}{name}' for folder in ('', 'd/', 'e/') for name in 'abcdef']


def perform(root, name, *words):
    """One change, which the server makes as one."""
    place = [f'{root}/{word}' if type(word) is str else word for word in words]
    return attempt(CALLS[name], *place)


def write(path, size, place, sync):
    file = os.open(path, os.O_WRONLY)
    try:
        os.pwrite(file, bytes([size % 251]) * size, place)
        if sync:
            os.fsync(file)
    finally:
        os.close(file)


def fill(path, number, size, sync):
    """Writes all of a file in one call."""
    file = os.open(path, os.O_WRONLY | os.O_CREAT)
    try:
        written = os.pwrite(file, bytes([number]) * size, 0)
        if sync:
            os.fsync(file)
        return written
    finally:
        os.close(file)


CALLS = {
    'create': lambda path, mode: os.close(os.open(path, os.O_WRONLY | os.O_CREAT | os.O_EXCL, mode)),
    'write': write, 'mkdir': os.mkdir, 'unlink': os.unlink, 'rename': os.rename, 'link': os.link, 'truncate': os.truncate,
    'chmod': os.chmod, 'rmdir': os.rmdir, 'touch': os.utime, 'fill': fill,
}


def work_of(dice):
    """Random changes that mostly succeed."""
    yield 'mkdir', 'd', 0o755
    yield 'mkdir', 'e', 0o755
    while True:
        path, other = dice.choice(NAMES), dice.choice(NAMES)
        yield dice.choice([
            ('create', path, 0o644), ('create', other, 0o600), ('write', path, dice.randrange(1, 4097), 4096 * dice.randrange(8), False),
            ('write', path, dice.randrange(1, 4097), 4096 * dice.randrange(40), dice.random() < 0.3), ('rename', path, other),
            ('unlink', path), ('link', path, other), ('truncate', path, dice.randrange(20_000)),
            ('chmod', path, dice.choice([0o644, 0o600, 0o755])), ('touch', path)])


def noted_of(root):
    """The number and the times of all paths of a tree."""
    return {path: Noted(seen.st_ino, stamps_of(seen)) for path, seen in statuses(root).items()}


def watched(root, make):
    """Has a change made in a directory: its answer, and the times that it sets to the present one."""
    spans = Spans()
    spans.begin('it')
    answer = make()
    spans.end()
    told = {path: spans.all_told(seen) for path, seen in statuses(root).items()}
    return answer, {(path, field) for path, fields in told.items() for field, call in fields.items() if call == 'it'}


def states_of(root, work, first):
    """The trees that the changes leave one after the other, from behind so many on, what each answers, and which times the last sets."""
    states, answers, moved = {}, [], set()
    for number in range(len(work) + 1):
        if number >= first:
            states[number] = tree_of(root)
        if number == len(work) - 1:
            answer, moved = watched(root, lambda: perform(root, *work[number]))
            answers.append(answer)
        elif number < len(work):
            answers.append(perform(root, *work[number]))
    return Made(states, answers, moved)


def sync_root(mounted):
    """Gives times to the root, since those of a new one aren't known, and has them kept."""
    os.utime(mounted.mount)
    folder = os.open(mounted.mount, os.O_RDONLY)
    os.fsync(folder)
    os.close(folder)


def end_at(server, seconds):
    time.sleep(seconds)
    os.kill(server, signal.SIGKILL)


def killed(mounted, worker, work, seconds):
    """Sends the changes, and so long after the last one kills the server: the answers until then, how many changes the last sync covers,
    the times before each change if they are kept, and from when to when the last one may have been made."""
    answers, synced, noted, server, began = [], 0, [], mounted.server(), 0
    for number, change in enumerate(work):
        noted.append(noted_of(mounted.mount) if mounted.keeps_times() else None)
        began = time.time_ns()
        worker.send(mounted.mount, *change)
        if number == len(work) - 1:
            end_at(server, seconds)
        answer = worker.answer()
        if answer in ENDED:
            break
        answers.append(answer)
        if change[0] == 'write' and change[-1] and answer is None:
            synced = number + 1
    return Killed(answers, synced, noted, (began, time.time_ns()))


def kills(mounted, told, seed, count):
    """Kills so many servers, each over work of its own, and as many over writes of a whole file."""
    lost, done = [], []
    for number in range(count):
        dice = random.Random(f'{seed} {number}')
        changes = work_of(dice)
        work = [next(changes) for _ in range(250)][:dice.randrange(250) + 1]
        mounted.fresh()
        mounted.begin()
        if mounted.keeps_times():
            sync_root(mounted)
        worker = Worker('root', perform)
        # A change takes less than a millisecond, and one that commits some.
        seen = killed(mounted, worker, work, dice.random() * dice.choice([0.0005, 0.005]))
        worker.end()
        at = judge(mounted, told, f'kill {number} of seed {seed} behind {len(seen.answers)} changes', work, seen)
        told.compared += 1
        if at is not None:
            lost.append(max(len(seen.answers) - at, 0))
            done.append(len(seen.answers))
    if done:
        print(f'{count} kills, behind {min(done)} to {max(done)} changes, of which up to {max(lost)} were lost that nobody had synced')
    writes_killed(mounted, told, seed, count)


def recovered(mounted, told, text):
    """Mounts the image anew, if that is as it may be."""
    if not mounted.gone():
        told.fault(f'{text}: the mount stays')
        return False
    if not mounted.check().startswith('clean '):
        told.fault(f'{text}: {mounted.check()}')
        return False
    mounted.begin()
    return True


def judge(mounted, told, text, work, seen):
    """Finds out whether the image is clean, and holds a tree that the work left behind the last sync: after how many changes."""
    made = states_of(mounted.local, work, seen.synced)
    if seen.answers != made.answers[:len(seen.answers)]:
        told.fault(f'{text}: other answers than in the directory')
    if not recovered(mounted, told, text):
        return None
    at = fitting(mounted.mount, told, text, made, seen, mounted.keeps_times())
    mounted.end()
    return at


def fitting(root, told, text, made, seen, timed):
    """After how many changes there was the tree that is there now, with its times, if any are kept."""
    found, noted = tree_of(root), noted_of(root)
    right = [number for number, state in made.states.items() if state == found]
    if not right:
        told.fault(f'{text}: the tree is none of those behind the last sync, {min(made.states)} changes, and those that followed; beside '
                   f'the last of them: {list(other_nodes(found, made.states[max(made.states)]))[:4]}')
        return None
    fits = [number for number in right if not timed or has_times_behind(noted, number, made, seen)]
    if not fits:
        told.fault(f'{text}: the tree is that behind {right[-1]} changes, and the times are others: '
                   f'{other_times(noted, seen.noted, right[-1])}')
    return (fits or right)[-1]


def has_times_behind(noted, number, made, seen):
    """Whether a tree's times are those behind so many changes."""
    if number < len(seen.noted):
        return noted == seen.noted[number]
    # The last one, answered or not: what it sets has one time, at which it was made, and all else has the times that it had.
    before = dict(seen.noted[-1].values())
    stayed = [before.get(one.number, {}).get(field) == stamp for path, one in noted.items() for field, stamp in one.stamps.items()
              if (path, field) not in made.moved]
    moment = {noted[path].stamps[field] for path, field in made.moved}
    return all(stayed) and len(moment) <= 1 and all(seen.span[0] <= stamp <= seen.span[1] for stamp in moment)


def other_times(noted, before, number):
    """Some of the numbers and times that differ from those behind so many changes, or from those behind the change before."""
    before = before[min(number, len(before) - 1)]
    return [(path, *one, before.get(path)) for path, one in sorted(noted.items()) if one != before.get(path)][:4]


# ---- writes of a whole file, which a commit divides

FILE_SIZE = 1 << 20  # more than a commit takes
MOST_WRITES = 12


def writes_until_killed(mounted, worker, dice):
    """Writes a file over and over, each time with a byte of its own, and kills the server within the last write: the spans of the
    writes, the times behind each that was answered, and which one the last sync covers."""
    spans, noted, synced, server = Spans(), {}, 0, mounted.server()
    path, last = mounted.mount / 'f', dice.randrange(1, MOST_WRITES)
    for number in range(last + 1):
        sync = number == 0 or dice.random() < 0.2
        spans.begin(number)
        worker.send(mounted.mount, 'fill', 'f', number, FILE_SIZE if number else 0, sync)
        if number == last:
            end_at(server, dice.random() * dice.choice([0.003, 0.03]))
        answer = worker.answer()
        spans.end()
        if type(answer) is str:
            break
        if number < last:
            noted[number] = stamps_of(os.stat(path))
        synced = number if sync else synced
    return spans, noted, synced


def file_is_of(data, number):
    """Whether a file has bytes of this write, and behind them only those of the one before."""
    behind = data.lstrip(bytes([number]))
    return len(behind) < len(data) and behind == bytes([number - 1]) * len(behind) and (number == 1 or len(data) == FILE_SIZE)


def judge_writes(mounted, told, text, spans, noted, synced):
    """Compares the file's times with those of the write from which its first byte is: whether only a part of that is there."""
    data, stamps = (mounted.mount / 'f').read_bytes(), stamps_of(os.stat(mounted.mount / 'f'))
    number = data[0] if data else 0
    if number < synced or data and not file_is_of(data, number):
        told.fault(f'{text}: the bytes are those of no write since the one that was synced, {synced}')
        return False
    divided = data != bytes([number]) * FILE_SIZE
    wanted = {'access': noted[0]['access'], 'modification': number, 'change': number}
    seen = {**{field: spans.told(stamp) for field, stamp in stamps.items()}, 'access': stamps['access']}
    told.compare('kills', f'{text}: which write set the times, by the bytes', None, seen, wanted)
    if number in noted and not (divided and number):
        told.compare('kills', f'{text}: the times that were told behind write {number}', None, stamps, noted[number])
    return divided and number > 0


def writes_killed(mounted, told, seed, count):
    """Kills so many servers, of which those count whose images have times."""
    divided, done = 0, 0
    for number in range(count):
        mounted.fresh()
        if not mounted.keeps_times():
            continue
        mounted.begin()
        dice, worker = random.Random(f'{seed} writes {number}'), Worker('root', perform)
        seen = writes_until_killed(mounted, worker, dice)
        worker.end()
        text = f'kill {number} of seed {seed} within writes'
        if recovered(mounted, told, text):
            divided += judge_writes(mounted, told, text, *seen)
            done += 1
            mounted.end()
    if done:
        print(f'{done} kills within writes of {FILE_SIZE:,} bytes, of which {divided} left a part of one')
