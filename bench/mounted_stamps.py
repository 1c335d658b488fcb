"""By which call each time in a tree was set: what a mount and the directory beside it have alike, though their clocks differ.

A time is told as the call in whose span it lies, and in nanoseconds where it lies in none, as one that utimens(2) has given. The
spans have no moment in common. Linux's file systems take times from a clock that moves with each tick, and where a time was looked at
from a finer one, so that a call may set two; a mount takes that of the request. So a span begins by the clock of the ticks, and only
once that has passed the end of the last one, and it ends by the finer clock. To wait for the tick, in place of setting old times before
each call, leaves all times as they are, and no call could set an old change time. What is compared after a call is each time of all
objects: their order, which of them are equal, and that all others stayed.
"""
import bisect
import collections
import os
import time

from mounts import attempt

CLOCK_OF_TICKS = 5  # CLOCK_REALTIME_COARSE in <linux/time.h>
FIELDS = {'access': 'st_atime_ns', 'modification': 'st_mtime_ns', 'change': 'st_ctime_ns'}
Difference = collections.namedtuple('Difference', 'path field ours theirs')


def statuses(root):
    """All paths of a tree with their status, which is taken before a directory is listed: that may move its access time."""
    found, folders = {'.': os.lstat(root)}, ['']
    while folders:
        folder = folders.pop()
        for entry in os.scandir(f'{root}/{folder}'):
            path = folder + entry.name
            found[path] = entry.stat(follow_symlinks=False)
            if entry.is_dir(follow_symlinks=False):
                folders.append(f'{path}/')
    return found


def stamps_of(seen):
    """The times in a status, in nanoseconds."""
    return {field: getattr(seen, name) for field, name in FIELDS.items()}


def times_of(root):
    """The times of all paths of a tree."""
    return {path: stamps_of(seen) for path, seen in statuses(root).items()}


class Spans:
    """The spans of calls, one after the other."""

    def __init__(self):
        self.names, self.starts, self.ends = [], [], []

    def begin(self, name):
        last = time.time_ns()
        while time.clock_gettime_ns(CLOCK_OF_TICKS) <= last:
            time.sleep(0.0002)
        self.names.append(name)
        self.starts.append(time.clock_gettime_ns(CLOCK_OF_TICKS))

    def end(self):
        self.ends.append(time.time_ns())

    def told(self, stamp):
        """The name of the call in whose span a time lies, or the time."""
        at = bisect.bisect_right(self.starts, stamp) - 1
        return self.names[at] if at >= 0 and stamp <= self.ends[at] else stamp

    def all_told(self, seen):
        return {field: self.told(stamp) for field, stamp in stamps_of(seen).items()}


class Watch:
    """A tree of a mount and one of a directory, both empty to begin with, on which the same calls are made."""

    def __init__(self, sides):
        self.sides, self.spans = [str(side) for side in sides], Spans()
        self.access = {}  # of what is on the mount, by its number
        self.mend('the start', ['.'])

    def begin(self, name):
        """Before a call on both sides, which has a name of its own."""
        self.spans.begin(name)

    def end(self, given=None, follow=True):
        """After it: the times that differ. Where it has given an access time, the path at which it did, and whether a link is followed.

        Reading moves that in the directory alone: so one there counts where it was given just now or is of a new object. Else that of the
        mount has to be what it was."""
        self.spans.end()
        theirs, given, found, access = statuses(self.sides[1]), self.number_at(given, follow), [], {}
        for path, their in theirs.items():
            our = attempt(os.lstat, f'{self.sides[0]}/{path}')
            if type(our) is str:
                found.append(Difference(path, 'status', our, 'there'))
                continue
            ours, wanted = self.spans.all_told(our), self.spans.all_told(their)
            if our.st_ino in self.access and our.st_ino != given:
                wanted['access'] = self.access[our.st_ino]
            access[our.st_ino] = ours['access']
            found += [Difference(path, field, ours[field], wanted[field]) for field in FIELDS if ours[field] != wanted[field]]
        self.access = access
        return found

    def number_at(self, path, follow):
        """The number of what a path leads to on the mount."""
        if path is None:
            return None
        return attempt(lambda: os.stat(f'{self.sides[0]}/{path}', follow_symlinks=follow).st_ino)

    def mend(self, name, paths):
        """Sets the times of these paths on both sides, so that a difference is told once."""
        self.spans.begin(name)
        for side in self.sides:
            for path in paths:
                attempt(lambda: os.utime(f'{side}/{path}', follow_symlinks=False))
        self.spans.end()
        for path in paths:
            seen = attempt(os.lstat, f'{self.sides[0]}/{path}')
            if type(seen) is not str:
                self.access[seen.st_ino] = self.spans.told(seen.st_atime_ns)
