#!/usr/bin/env python3
"""Sets 1,000 clients at once on `PROGRAM serve`, most of them hostile, and kills the server in mid-run:
    bench/under_fire.py [PROGRAM [SECONDS]]
TVHOST names the program too; without both it is crates/tvhost/out/tvhost. SECONDS, 20 where it isn't given, is how long the
clients go on.

Some clients send garbage, some lines of a megabyte without an end, some a byte at a time, some close at once, some close the
half that they write to, and some never read a reply. The others do rounds of ordinary lines. It checks that each reply of
these is right and comes in time, that whoever sends a line too long is told so, that a half-closed connection is answered
and ended, that the server's memory stays below what its limits allow for each connection, and that the record up to
`kill -9` replays: whole lines give status 0, and a last line that is cut is the one that is refused. It prints its figures,
and the status is 1 where a check failed. It needs Linux and Python 3.9 or later, and nothing else.
"""
import asyncio
import os
import random
import resource
import signal
import subprocess
import sys
import tempfile
import time

CLIENTS = {'ordinary': 350, 'garbage': 150, 'long lines': 50, 'byte by byte': 150, 'close at once': 100, 'half closed': 100,
           'never read': 100}
MEGABYTE = 1 << 20
LATEST_REPLY = 10.0  # seconds
# Whoever has closed comes back after so many seconds, which makes one in a second. A turn of the loop takes one event, so of
# those who wait at the listener one is let in while each connection that has something to say says it once.
BACK_AFTER = 100.0, 300.0
# Of a connection less than 65,536 bytes are unsent when it is read, and the replies to the 4,096 bytes of a read come on top.
# A vector that grows has room for twice as much at most. The rest is for the objects and for the program.
BOUND_KIB = 16 * 1024 + sum(CLIENTS.values()) * 160


class Fire:
    """What goes on, for how long, and what was found."""

    def __init__(self, path, seconds):
        self.path, self.until = path, time.monotonic() + seconds
        self.killed = False
        self.replies = dict.fromkeys(CLIENTS, 0)
        self.delays, self.memory, self.most_open, self.run_time = [], [], 0, 0.0
        self.wrong = []

    def goes_on(self):
        return not self.killed and time.monotonic() < self.until

    def check(self, right, what):
        """Notes what was found to be wrong while the server ran."""
        if not right and not self.killed:
            self.wrong.append(what)

    async def connect(self):
        while True:
            try:
                return await asyncio.open_unix_connection(self.path, limit=MEGABYTE)
            except BlockingIOError:  # as many as may wait at the listener do so
                await asyncio.sleep(random.uniform(0.001, 0.02))


async def reply(fire, kind, reader):
    """The next reply without its LF, within the time that there is for one."""
    begun = time.monotonic()
    line = await asyncio.wait_for(reader.readline(), LATEST_REPLY)
    fire.replies[kind] += line.endswith(b'\n')
    if kind == 'ordinary':
        fire.delays.append(time.monotonic() - begun)
    return line.rstrip(b'\n')


async def ordinary(fire, kind, reader, writer):
    """Makes two objects, asks about them, frees them, and waits for a sleep and a job."""
    tag = 0

    async def ask(words):
        nonlocal tag
        tag += 1
        writer.write(b'%d %s\n' % (tag, words))
        words_of_reply = (await reply(fire, kind, reader)).split(b' ', 1)
        fire.check(words_of_reply[0] == b'%d' % tag, f'the reply {words_of_reply} to {tag} {words}')
        return words_of_reply[-1]

    while fire.goes_on():
        outer = await ask(b'new 0 64 request')
        inner = await ask(b'new %s 32 buffer' % outer)
        for words, wanted in ((b'total 0', b'96'), (b'parent %s' % inner, outer), (b'hook %s 16' % inner, b'ok'),
                              (b'free 0', b'no 1 0'), (b'free %s' % outer, b'ok'), (b'free %s' % outer, b'no 1 %s' % outer),
                              (b'total 0', b'0'), (b'sleep 500', b'ok'), (b'job 0', b'ok')):
            got = await ask(words)
            fire.check(got == wanted, f'{words} gave {got}, not {wanted}')


async def garbage(fire, kind, reader, writer):
    """Sends any bytes, and lines that are nearly right."""
    nearly = [b'1 new 0 5', b'01 total 0', b'1 hook 9 15', b'-1 total 0', b'1 free 18446744073709551616', b'1 total  0', b'', b'\x00']
    while fire.goes_on():
        writer.write(random.choice(nearly) + b'\n' + random.randbytes(random.randrange(1, 2000)) + b'\n')
        await writer.drain()
        line = await reply(fire, kind, reader)
        fire.check(line in (b'- form', b'- long'), f'garbage was answered {line}')
        await asyncio.sleep(random.uniform(0, 1))


async def long_lines(fire, kind, reader, writer):
    """Sends a line of a megabyte, which is told to be long as soon as that is known, and a right line behind it. The next one
    has no end."""
    for end in (b'\n', b''):
        writer.write(b'a' * 2000)
        line = await reply(fire, kind, reader)
        fire.check(line == b'- long', f'a long line was answered {line}')
        for _ in range(64):
            writer.write(b'a' * (MEGABYTE // 64))
            await writer.drain()
        if end:
            writer.write(end + b'7 total 0\n')
            line = await reply(fire, kind, reader)
            fire.check(line == b'7 0', f'the line behind a long one was answered {line}')
    while fire.goes_on():
        writer.write(b'a')
        await asyncio.sleep(0.5)


async def byte_by_byte(fire, kind, reader, writer):
    """Sends right lines, a byte at a time."""
    while fire.goes_on():
        for byte in b'5 total 0\n':
            writer.write(bytes([byte]))
            await asyncio.sleep(random.uniform(0, 0.05))
        line = await reply(fire, kind, reader)
        fire.check(line == b'5 0', f'a line that came by bytes was answered {line}')


async def close_at_once(_fire, _kind, _reader, writer):
    """Closes, with half a line under way or with none."""
    if random.random() < 0.5:
        writer.write(b'1 new 0 5 a\n2 ne')


async def half_closed(fire, kind, reader, writer):
    """Closes the half that it writes to, and reads on to the end."""
    writer.write(b'1 total 0\n2 sleep 60000000\n')
    writer.write_eof()
    line = await reply(fire, kind, reader)
    fire.check(line == b'1 0', f'a half-closed connection was answered {line}')
    rest = await asyncio.wait_for(reader.read(), LATEST_REPLY)
    fire.check(rest == b'', f'a half-closed connection was answered {rest} too')


async def never_read(fire, _kind, _reader, writer):
    """Sends lines with longer replies for as long as they are taken, and reads none of these."""
    writer.transport.pause_reading()
    while fire.goes_on():
        writer.write(b'1 total 0\n' * 100 + b'\n' * 1000)
        await writer.drain()
        await asyncio.sleep(0.01)


KINDS = {'ordinary': ordinary, 'garbage': garbage, 'long lines': long_lines, 'byte by byte': byte_by_byte,
         'close at once': close_at_once, 'half closed': half_closed, 'never read': never_read}


async def client(fire, kind):
    """A client of this kind, and again a new one where it has come to its end."""
    while fire.goes_on():
        try:
            reader, writer = await fire.connect()
        except OSError as why:
            fire.check(False, f'{kind}: no connection: {why}')
            return
        try:
            await KINDS[kind](fire, kind, reader, writer)
        except asyncio.TimeoutError:
            fire.check(False, f'{kind}: no reply within {LATEST_REPLY:.0f} seconds')
        except OSError as why:
            fire.check(False, f'{kind}: {why}')
        finally:
            writer.close()
        if fire.goes_on():
            await asyncio.sleep(random.uniform(*BACK_AFTER))


def memory_kib(pid):
    """The most memory that the process has had, and 0 where it has ended."""
    with open(f'/proc/{pid}/status') as file:
        return int(next((line.split()[1] for line in file if line.startswith('VmHWM:')), 0))


def processor_seconds(pid):
    """How long the process has run on a processor."""
    with open(f'/proc/{pid}/schedstat') as file:
        return int(file.read().split()[0]) / 1e9


async def watch(fire, pid):
    while not fire.killed:
        fire.memory.append(memory_kib(pid))
        fire.most_open = max(fire.most_open, len(os.listdir(f'/proc/{pid}/fd')))
        await asyncio.sleep(0.25)


async def attack(fire, server, seconds):
    """All clients at once, and the server's end in mid-run."""
    clients = [asyncio.ensure_future(client(fire, kind)) for kind, count in CLIENTS.items() for _ in range(count)]
    watching = asyncio.ensure_future(watch(fire, server.pid))
    await asyncio.sleep(seconds)
    fire.memory.append(memory_kib(server.pid))
    fire.run_time = processor_seconds(server.pid)
    fire.killed = True
    server.send_signal(signal.SIGKILL)
    for task in clients:
        task.cancel()
    await asyncio.gather(watching, *clients, return_exceptions=True)


def replay(program, record):
    """Replays the record, whose last line may be cut. Answers its lines, the transcript's, and what was wrong."""
    with open(record, 'rb') as file:
        whole = file.read()
    lines, cut = whole.count(b'\n'), not whole.endswith(b'\n')
    with open(record, 'rb') as file:
        ran = subprocess.run([program, 'replay'], stdin=file, capture_output=True)
    wanted = (3, b'line %d: form\n' % (lines + 1)) if cut else (0, b'')
    wrong = [] if (ran.returncode, ran.stderr) == wanted else [f'the record gave {ran.returncode} {ran.stderr}, not {wanted}']
    last = ran.stdout[ran.stdout.rfind(b'\n', 0, -1) + 1:]
    if not last.startswith(b'end '):
        wrong.append(f'the transcript ends with {last[:80]}')
    return lines, ran.stdout.count(b'\n'), cut, wrong


def run(program, seconds, folder):
    """The server, its clients, its end and the replay, with their figures. Answers what was wrong."""
    path, record = f'{folder}/socket', f'{folder}/record'
    with open(record, 'wb') as file:
        server = subprocess.Popen([program, 'serve', path, '1000000000'], stdout=file)
    while not os.path.exists(path) and server.poll() is None:
        time.sleep(0.01)
    fire = Fire(path, seconds + 60)
    try:
        asyncio.run(attack(fire, server, seconds))
    finally:
        server.kill()
        ended = server.wait()
    if ended != -signal.SIGKILL:
        fire.wrong.insert(0, f'the server ended by itself with {ended}')
    lines, told, cut, wrong = replay(program, record)
    fire.wrong += wrong
    fire.delays.sort()
    count = len(fire.delays)
    for kind, replies in fire.replies.items():
        print(f'{CLIENTS[kind]:5} {kind}: {replies} replies')
    if count == 0 or fire.memory[-1] > BOUND_KIB:
        fire.wrong.append(f'{count} replies to ordinary lines, {fire.memory[-1]} KiB of at most {BOUND_KIB}')
        return fire.wrong
    print(f'an ordinary reply came after {1e3 * fire.delays[count // 2]:.1f} ms, after {1e3 * fire.delays[count * 99 // 100]:.1f} ms '
          f'in 99 of 100 cases, and after {1e3 * fire.delays[-1]:.1f} ms at the latest')
    print(f'the server ran {fire.run_time:.1f} of {seconds:.1f} seconds, {1e6 * fire.run_time / max(lines, 1):.1f} microseconds for an answer')
    print(f'descriptors open at once: {fire.most_open}; memory at most {fire.memory[len(fire.memory) // 2]} KiB by half time and '
          f'{fire.memory[-1]} KiB by the end, of {BOUND_KIB} KiB')
    print(f'record: {lines} lines, {os.path.getsize(record)} bytes, last line {"cut" if cut else "whole"}; transcript: {told} lines')
    return fire.wrong


def main():
    here = os.path.dirname(os.path.dirname(os.path.abspath(__file__)))
    words = sys.argv[1:]
    program = words[0] if words else os.environ.get('TVHOST', f'{here}/crates/tvhost/out/tvhost')
    seconds = float(words[1]) if len(words) > 1 else 20.0
    most = resource.getrlimit(resource.RLIMIT_NOFILE)[1]
    resource.setrlimit(resource.RLIMIT_NOFILE, (most, most))
    with tempfile.TemporaryDirectory() as folder:
        wrong = run(program, seconds, folder)
    for what in wrong[:20]:
        print(f'WRONG: {what}')
    print(f'{len(wrong)} wrong')
    return 1 if wrong else 0


if __name__ == '__main__':
    sys.exit(main())
