"""The rows of bench/scale in which programs work on a few files: a database, dbench and fio."""
import mmap
import sqlite3

from scale_places import command, needs

RECORDS, IN_ONE_TRANSACTION = 100_000, 1_000
# A record has some 40 bytes with them, so that 100,000 take 4 MB.
WORDS = [f'word {number * 7_919 % 100_003:06} of {number % 97}' for number in range(1_000)]
MODES = ['delete', 'truncate', 'wal']
SECONDS_OF_DBENCH, USERS = 20, 4
JOBS, FILES_OF_A_JOB, LARGEST = 4, 8, 8 << 20  # of fio; so far reach two levels of sectors of pointers


# ---- SQLite

def shared_memory(root):
    """Whether a file can be in the memory of several processes which write to it: SQLite needs that for a write-ahead log."""
    path = root / 'shared'
    path.write_bytes(bytes(mmap.PAGESIZE))
    try:
        with path.open('r+b') as file, mmap.mmap(file.fileno(), mmap.PAGESIZE) as memory:
            memory[:4] = b'mine'
        return path.read_bytes()[:4] == b'mine'
    except OSError:
        return False
    finally:
        path.unlink()


def word(number):
    return f'{WORDS[number % 1_000]} {number // 1_000}'


def changed(number):
    return word(number) + '!' if number % 10 == 0 else word(number)


def fill(database, count):
    database.execute('create table words (number integer primary key, word text)')
    for start in range(0, count, IN_ONE_TRANSACTION):
        numbers = range(start, start + IN_ONE_TRANSACTION)
        with database:
            database.executemany('insert into words values (?, ?)', ((number, word(number)) for number in numbers))


def change(database, count):
    for start in range(0, count, 10 * IN_ONE_TRANSACTION):
        numbers = range(start, min(start + 10 * IN_ONE_TRANSACTION, count), 10)
        with database:
            database.executemany('update words set word = ? where number = ?', ((changed(number), number) for number in numbers))


def compare_records(turn, title, database, count):
    turn.same(f'{title}: integrity_check', database.execute('pragma integrity_check').fetchall(), [('ok',)])
    found = [text for text, in database.execute('select word from words order by number')]
    wrong = [number for number, text in enumerate(found) if text != changed(number)]
    turn.demand(len(found) == count and not wrong, f'{title}: {len(found)} records, {len(wrong)} of them others, {wrong[:3]}')


def records(turn):
    turn.start()
    count = turn.part(RECORDS)
    modes = MODES if shared_memory(turn.root) else MODES[:-1]
    if 'wal' not in modes:
        turn.tell('wal', 'no shared memory')
    for mode in modes:
        database = sqlite3.connect(turn.root / mode)
        turn.same('journal mode', database.execute(f'pragma journal_mode = {mode}').fetchone(), (mode,))
        with turn.timed(f'{mode}: records made'):
            fill(database, count)
        with turn.timed(f'{mode}: one of ten changed'):
            change(database, count)
        compare_records(turn, mode, database, count)
        database.close()
    turn.again()
    for mode in modes:
        database = sqlite3.connect(turn.root / mode)
        with turn.timed(f'{mode}: read after a mount'):
            compare_records(turn, f'{mode} after a mount', database, count)
        database.close()
    turn.end()


# ---- what others measure with

def dbench(turn):
    needs('dbench')
    turn.start()
    printed = command('dbench', '-D', turn.root, '-t', turn.part(SECONDS_OF_DBENCH), USERS)
    line = next((line for line in printed.splitlines() if line.startswith('Throughput')), 'Throughput nothing')
    turn.demand('Throughput' in printed, f'dbench: {printed[-200:]}')
    turn.tell('MB a second', line.split()[1])
    turn.end()


def fio(turn):
    """It writes blocks at random places, syncs behind each megabyte, reads all again and compares the sums that are in them."""
    needs('fio')
    turn.start()
    size = turn.part(FILES_OF_A_JOB * LARGEST) >> 16 << 16
    words = ['--name=job', '--thread', f'--numjobs={JOBS}', f'--directory={turn.root}', f'--nrfiles={FILES_OF_A_JOB}',
             f'--size={size}', '--rw=randwrite', '--bs=4k', '--fsync=256', '--verify=crc32c', '--verify_fatal=1',
             '--group_reporting']
    aside = turn.once('state', lambda path: None)  # where it leaves what it knows of a block that it refuses
    with turn.timed('written at random places, and verified'):
        command('fio', *words, cwd=aside)
    turn.again()
    with turn.timed('verified after a mount'):
        command('fio', *words, '--verify_only', cwd=aside)
    turn.end()


ROWS = {'sqlite': records, 'dbench': dbench, 'fio': fio}
