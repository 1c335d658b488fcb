"""A soak: for so many minutes random calls of four users, with kills of the server and mounts anew between them.

The calls of a round are those of several lanes side by side. Each has a tree, dice and four users of its own, and compares each answer
with that of the directory; in one lane the times of all objects too. Behind a round the server is killed within a further change of one
of the trees, or the image is mounted anew. A mount anew has to give back all trees and times. A kill has to leave the tree that one of
the changes since the last sync has left, with the times that the mount told of it, and all else as it was. Each image is checked behind
each end of its server.
"""
import collections
import os
import pickle
import random
import shutil
import time
import traceback

from mounted_calls import WHO, Choice, failed, known, one_tree, perform
from mounted_kills import ENDED, Killed, Made, end_at, fitting, noted_of, recovered, sync_root, watched
from mounts import Worker, is_mounted, other_nodes, tree_of

ROUNDS = 4  # on an image
LANES = [500, 500, 500, 100]  # calls of each; in the last one the times are looked at
IN_WINDOW = 40  # changes before a kill
# Changes that the server makes as one: not those that make several calls, nor any that only looks.
CHANGES = {'open', 'close', 'write', 'ftruncate', 'fchmod', 'fsync', 'mkdir', 'rmdir', 'unlink', 'rename', 'link', 'symlink', 'chmod',
           'chown', 'truncate', 'umask', 'setacl', 'utime'}
# Of them those that may set other times than the directory's, as is known (6 in docs/MOUNT.md), or given ones.
OTHER_TIMES = {'setacl', 'truncate', 'utime'}
EACH = 60  # seconds between two lines that tell how far it is


# ---- lanes

def in_lane(told, work):
    """Has a process of its own do some work."""
    reading, writing = os.pipe()
    pid = os.fork()
    if pid == 0:
        status = 1
        try:
            os.close(reading)
            compared, before, faults = told.compared, told.known.copy(), len(told.wrong)
            answer = work()
            with os.fdopen(writing, 'wb') as file:
                pickle.dump((answer, told.compared - compared, told.known - before, told.wrong[faults:]), file)
            status = 0
        except BaseException:
            traceback.print_exc()
        finally:
            os._exit(status)
    os.close(writing)
    return pid, reading


def joined(told, lane, text):
    """What the work of a lane answers; what it has compared counts for all."""
    pid, reading = lane
    with os.fdopen(reading, 'rb') as file:
        data = file.read()
    if os.waitpid(pid, 0)[1]:
        told.fault(f'{text}: it ended by itself')
        return None
    answer, compared, found, wrong = pickle.loads(data)
    told.compared += compared
    told.known += found
    told.wrong += wrong
    if wrong:
        print(f'    in {text}', flush=True)
    return answer


def calls_in_lane(mounted, told, choice, tree, count, looked_at):
    """How many calls were made, and what chooses the next ones."""
    done = one_tree(mounted, told, choice, tree, 0, count, looked_at)
    return done, choice


# ---- kills

def changes(choice):
    while True:
        yield from (call for call in choice.single() if call[1] in CHANGES)


class Window:
    """Changes of a tree on both sides before a kill: the states that they leave in the directory, and the times on the mount."""

    def __init__(self, mounted, told, tree, choice):
        self.mounted, self.told, self.choice = mounted, told, choice
        self.mount, self.local = (side / tree for side in mounted.sides())
        self.states, self.noted, self.answers, self.synced = [], [], [], 0
        self.note()

    def note(self):
        self.states.append(tree_of(self.local))
        self.noted.append(noted_of(self.mount))

    def change(self, workers, user, name, *words):
        """Makes one on both sides: whether both trees are alike then."""
        ours, theirs = (workers[user].ask(root, name, *words) for root in (self.mount, self.local))
        number = known(self.mounted, self.local, name, words, ours, theirs)
        self.told.compare('before a kill', f'{len(self.answers)}: {user} {name} {words}', number, ours, theirs)
        self.answers.append(ours)
        self.note()
        if name == 'fsync' and ours is None:
            self.synced = len(self.answers)
        return failed(ours) == failed(theirs)

    def killed_within(self, workers, seconds, user, name, *words):
        """Kills the server so long after the last change is sent: what is to be judged."""
        server, began = self.mounted.server(), time.time_ns()
        workers[user].send(self.mount, name, *words)
        end_at(server, seconds)
        ours = workers[user].answer()
        span = began, time.time_ns()
        theirs, moved = watched(self.local, lambda: workers[user].ask(self.local, name, *words))
        line = f'the last one: {user} {name} {words}'
        if ours not in ENDED:
            self.told.compare('before a kill', line, known(self.mounted, self.local, name, words, ours, theirs), ours, theirs)
        self.states.append(tree_of(self.local))
        synced = len(self.states) - 1 if name == 'fsync' and ours is None else self.synced
        states = {number: state for number, state in enumerate(self.states) if number >= synced}
        return Made(states, [*self.answers, theirs], moved), Killed(self.answers, synced, self.noted, span), line


def all_but(mounted, tree):
    """What is on the mount, and its times, but for one tree."""
    found = tree_of(mounted.mount)
    noted = {path: one.stamps for path, one in noted_of(mounted.mount).items()} if mounted.keeps_times() else {}
    return [{path: one for path, one in side.items() if path.split('/')[0] != tree} for side in (found, noted)]


def compare_all(told, text, before, after):
    """Compares what was on a mount with what is there now."""
    for line in other_nodes(after[0], before[0]):
        told.fault(f'{text}: {line}, which is as it was')
    for path in sorted({*before[1], *after[1]}):
        told.compare('times after a mount', f'{text}: {path}', None, after[1].get(path), before[1].get(path))


def kill_within(mounted, told, text, tree, choice):
    """Makes changes in a tree, kills the server within one of them, and mounts the image anew: how many changes, and none where the trees
    of both sides aren't alike."""
    sync_root(mounted)
    workers = {user: Worker(user, perform) for user in WHO}
    try:
        before, window = all_but(mounted, tree), Window(mounted, told, tree, choice)
        if window.states[0] != tree_of(window.mount):
            return 0
        last = choice.dice.randrange(IN_WINDOW)
        for call in changes(choice):
            if len(window.answers) >= last and call[1] not in OTHER_TIMES:
                break
            if not window.change(workers, *call):
                return 0
        made, seen, line = window.killed_within(workers, choice.dice.random() * choice.dice.choice([0.0005, 0.005]), *call)
    finally:
        for worker in workers.values():
            worker.end()
    text = f'{text}, {line}'
    if recovered(mounted, told, text):
        fitting(mounted.mount / tree, told, text, made, seen, mounted.keeps_times())
        compare_all(told, text, before, all_but(mounted, tree))
    return len(made.answers)


def mount_anew(mounted, told, text):
    before = all_but(mounted, None)
    mounted.end()
    check(mounted, told, text)
    mounted.begin()
    compare_all(told, text, before, all_but(mounted, None))


# ---- all of it

def check(mounted, told, text):
    line = mounted.check()
    if not line.startswith('clean '):
        told.fault(f'{text}: the image: {line}')


def one_round(mounted, told, text, dice, number, counts):
    """Calls in all lanes, and then a kill or a mount anew."""
    # With own_rules `.` and `..` ask for no search, as is known.
    endings = [''] * 12 + (['/'] if 'own_rules' in mounted.options else ['/', '/.', '/..'])
    lanes = []
    for at, count in enumerate(LANES):
        choice, tree = Choice(random.Random(dice.random()), endings), f'{number}.{at}'
        looked_at = at == len(LANES) - 1
        lanes.append((tree, in_lane(told, lambda: calls_in_lane(mounted, told, choice, tree, count, looked_at))))
    ended = [(tree, joined(told, lane, f'{text}, lane {tree}')) for tree, lane in lanes]
    counts['calls'] += sum(answer[0] for _, answer in ended if answer)
    tree, answer = dice.choice(ended)
    changed = kill_within(mounted, told, text, tree, answer[1]) if answer and dice.random() < 0.5 else 0
    if not changed:
        mount_anew(mounted, told, text)
    counts.update(calls=changed, kills=changed > 0, mounts=1, checks=1)


def on_image(mounted, told, seed, counts):
    """Some rounds on a new image, which is kept where something was wrong."""
    image, faults = counts['images'], len(told.wrong)
    (mounted.folder / 'denials').unlink(missing_ok=True)
    mounted.fresh()
    mounted.begin()
    sync_root(mounted)
    for number in range(ROUNDS):
        text = f'seed {seed}, image {image} of layout {mounted.version}, round {number}'
        one_round(mounted, told, text, random.Random(f'{seed} {image} {number}'), number, counts)
        if not is_mounted(mounted.mount):
            break
    else:
        mounted.end()
        check(mounted, told, f'seed {seed}, image {image}')
        counts.update(checks=1)
    counts.update(images=1, mounts=1)
    if len(told.wrong) > faults:
        kept = f'{mounted.folder}.{seed}.{image}'
        shutil.copy(mounted.image, kept)
        print(f'    the image is kept: {kept}', flush=True)


def soak(mounted, told, seed, minutes):
    """All of it, each fifth image being mounted with own_rules: of both layouts, where they come by turns."""
    counts, start, options = collections.Counter(), time.monotonic(), mounted.options
    shown = start
    while time.monotonic() < start + 60 * minutes:
        mounted.options = options + ['own_rules'] * (counts['images'] % 5 == 4)
        on_image(mounted, told, seed, counts)
        if time.monotonic() > shown + EACH:
            shown = time.monotonic()
            tell(counts, told, shown - start)
    tell(counts, told, time.monotonic() - start)


def tell(counts, told, seconds):
    parts = ', '.join(f'{counts[name]:,} {name}' for name in ('calls', 'kills', 'mounts', 'checks', 'images'))
    print(f'{parts}; {told.known.total()} differ as is known, {len(told.wrong)} otherwise; {seconds:.0f} seconds, '
          f'{counts["calls"] / seconds:.0f} calls a second', flush=True)
