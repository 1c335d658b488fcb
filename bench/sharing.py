"""Two programs on one image: as long as one has it the other is refused, and it goes through once the first has ended."""
import collections
import os
import pathlib
import signal
import subprocess
import time

from failing import SECONDS, Outcome, Wrong, counted, demand, environment, faults, told
from images import (LOOK, PROGRAM, STATES, TABLE, clean, content_of, layout, looked_at, made_or_not, remove_image, restore, run,
                    text_of, unchanged)

REFUSED = Outcome([], 3, 'image: cannot open')
THERE = Outcome([], 3, 'image: exists')
# A job that comes first, what stands before it, and what the image has to be once it has ended, or was killed.
Job = collections.namedtuple('Job', 'words lines before after_end after_kill')


class First:
    """A program that stands still before this call on its image, if it comes so far."""

    def __init__(self, job, number):
        pathlib.Path('script').write_text(text_of(job.lines))
        with open('script', 'rb') as script, open('replies', 'wb') as replies, open('errors', 'wb') as errors:
            self.process = subprocess.Popen([PROGRAM, *job.words], stdin=script, stdout=replies, stderr=errors,
                                            env=environment(('pause', number), False))

    def stands(self):
        """Whether it stands still, once it does that or has ended."""
        for _ in range(SECONDS * 1000):
            state = os.waitid(os.P_PID, self.process.pid, os.WSTOPPED | os.WEXITED | os.WNOHANG | os.WNOWAIT)
            if state:
                return state.si_code == os.CLD_STOPPED
            time.sleep(0.001)
        self.process.kill()
        raise Wrong('the first program neither stands nor ends')

    def ended(self, how):
        """What it has written and its status, once it was killed or went on to its end."""
        self.process.send_signal(how)
        status = self.process.wait(SECONDS)
        read = [pathlib.Path(name).read_text('latin-1') for name in ('replies', 'errors')]
        return Outcome(read[0].split('\n')[:-1], status, read[1].rstrip('\n'))


def refused():
    """Nobody else has the image: a second program asks for its lock alone, and one that makes an image not even for that."""
    content = content_of('image')
    for words, wanted, calls in ((['run', 'image'], REFUSED, 1), (['check', 'image'], REFUSED, 1), (layout().words, THERE, 0)):
        seen = run(words, text_of(LOOK))
        demand(seen == wanted, f'{words} beside it: {told(seen)}')
        demand(counted('call') == calls, f'{words} beside it: {counted("call")} calls on the image')
    demand(content_of('image') == content, 'the image has changed')


def beside(first, number, job, whole, how):
    """In which way two programs end, the first of which stands still before this call: the first call asks for the lock."""
    if number > 1:
        refused()
    else:
        looks_through()
    seen = first.ended(how)
    if how == signal.SIGKILL:
        demand(seen.status == -how, f'killed: {told(seen)}')
        job.after_kill(seen)
    else:
        demand(seen == whole, f'the first one: {told(seen)}')
        job.after_end(seen)
    return 'refused, and then goes through' if number > 1 else 'not refused yet'


def sweep(kind, job):
    """The first program stands still before each of its calls on the image in turn, and then is killed, or goes on."""
    job.before()
    whole = run(job.words, text_of(job.lines))
    for how, way in ((signal.SIGKILL, 'killed'), (signal.SIGCONT, 'goes on')):
        for fault in faults('pause'):
            job.before()
            first = First(job, fault[1])
            if not first.stands():
                demand(first.ended(0) == whole, 'a run that is not held has other replies')
                break
            TABLE.case(f'Two programs: {kind}, the first {way}', f'call {fault[1]}',
                       lambda: beside(first, fault[1], job, whole, how))
            if first.process.poll() is None:
                first.process.kill()
                first.process.wait()


def plainly(lines, how):
    """Without a library: the first program waits for its next line, and everything so far is synced."""
    restore('new')
    with subprocess.Popen([PROGRAM, 'run', 'image'], stdin=subprocess.PIPE, stdout=subprocess.PIPE) as first:
        first.stdin.write(text_of([*lines, 'sync']).encode())
        first.stdin.flush()
        replies = [first.stdout.readline() for _ in [*lines, 'sync']]
        demand(replies[-1] == b'ok\n', f'{replies}')
        refused()
        if how == 'killed':
            first.kill()
        else:
            first.stdin.close()
        first.wait(SECONDS)
    demand(first.returncode == (-signal.SIGKILL if how == 'killed' else 0), f'status {first.returncode}')
    demand(looked_at() == STATES[-1], 'what was synced is gone')
    return 'refused, and then goes through'


def found_of_kill(rows):
    """What a run that was killed leaves: all, once the sync was answered."""
    synced = next(at for at, (line, _) in enumerate(rows) if line.endswith('fsync 0'))

    def judge(seen):
        clean(['yes', 'no'])
        demand(looked_at() in (STATES[-1:] if len(seen.replies) > synced else STATES), f'{told(seen)}: another tree')
    return judge


def made_whole(seen):
    made_or_not(seen)
    demand(looked_at() == STATES[0], 'a new image is not empty')


def looks_through(_=None):
    """A check that goes through: the image is clean, or no file system."""
    check = run(['check', 'image'])
    demand(check.error == '' and (check.replies == ['finding 1 0'] or check.status == 0), f'check: {told(check)}')


def ended_whole(_):
    demand(looked_at() == STATES[-1], 'another tree')


def two_programs(rows):
    lines = [line for line, _ in rows]
    sweep('run', Job(['run', 'image'], lines, lambda: restore('new'), ended_whole, found_of_kill(rows)))
    sweep('check', Job(['check', 'image'], [], lambda: restore('base'), lambda seen: unchanged('base'),
                       lambda seen: unchanged('base')))
    sweep(layout().words[0], Job(layout().words, [], remove_image, made_whole, looks_through))
    for how in ('killed', 'ends'):
        TABLE.case('Two programs: the first waits for a line', how, lambda: plainly(lines, how))
