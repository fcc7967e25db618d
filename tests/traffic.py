"""Servers and clients of the tests of recording and playing. Nothing here goes by time: what is waited for is a condition."""
import asyncio
import contextlib
import os
import select
import shutil
import signal
import socket
import subprocess
import sys
import threading
import time

from checks import LONGEST, fail, skip
from zygos_tools.files.formats import Segment, read_capture, read_replies
from zygos_tools.files.part import Part
from zygos_tools.repository import TOP

# ---- servers


def free_port():
    with socket.socket() as one:
        one.bind(("127.0.0.1", 0))
        return one.getsockname()[1]


class Server:
    """A small memcached: `set`, `get`, `gets`, `cas`, `mg` with `q` and `c`, `ms` with `C`, `mn` and `quit`; `big N` is
    answered by an item of N bytes, `hold` once the test calls `release`, `hush` never, and `echo N` by the N bytes after
    it. The first unique is that after `unique`. It is in a thread of its own."""

    def __init__(self, place=("127.0.0.1", 0), unique=0):
        self.items, self.uniques, self.unique, self.hushed, self.held = {}, {}, unique, 0, 0
        self.writers, self.loop = set(), asyncio.new_event_loop()
        threading.Thread(target=self.loop.run_forever, daemon=True).start()
        self.listening = self.do(self.listen(place))
        address = self.listening.sockets[0].getsockname()
        self.place = place if isinstance(place, str) else "[{}]:{}".format(*address[:2])

    def do(self, task):
        return asyncio.run_coroutine_threadsafe(task, self.loop).result(LONGEST)

    async def listen(self, place):
        self.released = asyncio.Event()  # of this loop
        if isinstance(place, str):
            return await asyncio.start_unix_server(self.serve, place, backlog=4096)
        return await asyncio.start_server(self.serve, *place, backlog=4096)

    def release(self):
        """Lets commands `hold` be answered."""
        self.loop.call_soon_threadsafe(self.released.set)

    def __enter__(self):
        return self

    def __exit__(self, *_):
        """Ends at once, as a server that is killed."""
        self.do(self.stop())
        self.loop.call_soon_threadsafe(self.loop.stop)

    async def stop(self):
        self.listening.close()
        for writer in self.writers:
            writer.close()
        await asyncio.sleep(0)

    async def serve(self, lines, writer):
        self.writers.add(writer)
        with contextlib.suppress(OSError, ValueError):
            while (line := await lines.readline()).endswith(b"\n") and not line.startswith(b"quit"):
                writer.write(await self.answer(line.removesuffix(b"\r\n").split(b" "), lines, writer))
                await writer.drain()
        writer.close()
        self.writers.discard(writer)

    def store(self, key, block):
        self.unique += 1
        self.items[key], self.uniques[key] = block[:-2], self.unique

    async def answer(self, words, lines, writer):
        """What answers a command, or the rest of it."""
        name, *rest = words
        if name in (b"set", b"cas", b"ms"):
            return await self.answer_storing(words, lines)
        if name in (b"get", b"gets"):
            return b"".join(self.shown(key, name == b"gets") for key in rest if key in self.items) + b"END\r\n"
        if name == b"mg":
            return self.answer_mg(*rest)
        if name == b"big":
            return big(int(rest[0]))
        if name == b"hold":
            self.held += 1
            await self.released.wait()
            return b"OK\r\n"
        if name == b"echo":
            return await echo(rest[0], lines, writer)
        if name == b"hush":
            self.hushed += 1
            return b""
        return b"MN\r\n" if name == b"mn" else b"ERROR\r\n"

    async def answer_storing(self, words, lines):
        """Answers `set`, also with noreply, `cas` and `ms` with a unique."""
        name, key, *rest = words
        is_meta = name == b"ms"
        value = await lines.readexactly(int(rest[0 if is_meta else 2]) + 2)
        if name != b"set" and int(rest[-1].removeprefix(b"C")) != self.uniques.get(key):
            return b"EX\r\n" if is_meta else b"EXISTS\r\n"
        self.store(key, value)
        return b"HD\r\n" if is_meta else b"" if rest[3:] == [b"noreply"] else b"STORED\r\n"

    def answer_mg(self, key, *flags):
        """Answers `mg` with the flag c, or with q and v."""
        found = self.items.get(key)
        if b"c" in flags:
            return b"EN\r\n" if found is None else b"HD c%d\r\n" % self.uniques[key]
        return b"" if found is None else b"VA %d\r\n%s\r\n" % (len(found), found)

    def shown(self, key, has_unique):
        """The item of a key, as `get` or `gets` shows it."""
        value, unique = self.items[key], b" %d" % self.uniques[key] if has_unique else b""
        return b"VALUE %s 0 %d%s\r\n%s\r\n" % (key, len(value), unique, value)


async def echo(size, lines, writer):
    """Sends the bytes after an `echo` back as they come. Gives the end of the answer."""
    writer.write(b"VALUE echo 0 %s\r\n" % size)
    left = int(size) + 2
    while left and (text := await lines.read(min(left, 1 << 16))):
        writer.write(text)
        await writer.drain()
        left -= len(text)
    return b"END\r\n"


def big(size):
    return b"VALUE big 0 %d\r\n%s\r\nEND\r\n" % (size, b"0123456789" * (size // 10))


@contextlib.contextmanager
def memcached(*words):
    """A real memcached with these words, by its place; where there is none, the rest of the test is left out."""
    if not shutil.which("memcached"):
        skip("memcached is not installed")
    user = ["-u", "nobody"] if os.geteuid() == 0 else []
    while True:  # until the port is still free as memcached takes it
        port = free_port()
        process = subprocess.Popen(["memcached", "-l", "127.0.0.1", "-p", str(port), *user, *words], stderr=subprocess.DEVNULL)
        if is_listening(process, port):
            break
    with process:
        try:
            yield f"127.0.0.1:{port}"
        finally:
            process.terminate()


def is_listening(process, port):
    """Waits until a memcached listens, or has ended. Gives whether it listens: another one may have the port, so it is
    asked for its process."""
    while process.poll() is None:
        with contextlib.suppress(OSError), socket.create_connection(("127.0.0.1", port), 10) as one:
            one.sendall(b"stats\r\n")
            if take(one, 20).startswith(b"STAT pid %d\r\n" % process.pid):
                return True
        time.sleep(0.02)
    return False


# ---- clients

# how often it is looked whether something is so, each 0.05 seconds
PATIENCE = 20 * LONGEST


def connected(place):
    """A connection to a place, as soon as something listens there."""
    for _ in range(PATIENCE):
        with contextlib.suppress(OSError):
            if "/" in place:
                one = socket.socket(socket.AF_UNIX)
                one.connect(place)
            else:
                host, port = place.rsplit(":", 1)
                one = socket.create_connection((host.strip("[]"), int(port)))
            one.settimeout(LONGEST)
            return one
        time.sleep(0.05)
    raise OSError(f"nothing listens at {place}")


def until(name, is_so):
    """Waits until something is so."""
    for _ in range(PATIENCE):
        if is_so():
            return
        time.sleep(0.05)
    fail(name, "it never is")


def has_size(name, size):
    """Waits until a file has as many bytes."""
    until(f"{name} has {size} bytes", lambda: os.path.getsize(name) >= size)


def rest_of(one):
    """What comes until the other side closes."""
    got = bytearray()
    while piece := one.recv(1 << 16):
        got += piece
    return bytes(got)


def take(one, count):
    """The next bytes that come."""
    got = b""
    while len(got) < count and (piece := one.recv(count - len(got))):
        got += piece
    return got


def talk(place, text, pieces=1):
    """Sends a text, ends it, and reads until the other side closes."""
    with connected(place) as one:
        size = max(1, -(-len(text) // pieces))
        for at in range(0, len(text), size):
            one.sendall(text[at : at + size])
            time.sleep(0.01 if pieces > 1 else 0)
        one.shutdown(socket.SHUT_WR)
        return rest_of(one)


def at_once(clients):
    """Lets clients talk at the same time."""
    threads = [threading.Thread(target=client) for client in clients]
    for thread in threads:
        thread.start()
    for thread in threads:
        thread.join()


# ---- recordings


class Recorder:
    """tools/record, which is running; `place` is where its clients come."""

    def __init__(self, server, *words, listen="127.0.0.1:0", files=("my.cap", "my.replies"), tool=("tools/record",),
                 **more):
        given = ["--over", "--listen", listen, "--server", server, *words, *files]
        command = [os.path.join(TOP, tool[0]), *tool[1:], *given]
        self.process = subprocess.Popen(command, stderr=subprocess.PIPE, bufsize=0, **more)
        self.first = self.process.stderr.readline().decode()
        self.place = self.first.rsplit(" ", 1)[-1].strip()
        self.said = None

    def end(self, number=signal.SIGINT):
        """Ends it by a signal, or waits for its end; gives its status and what it said besides its first line."""
        if number:
            self.process.send_signal(number)
        self.said = self.process.communicate(timeout=LONGEST)[1].decode()
        return self.process.returncode, self.said

    def line(self):
        """The next line that it says."""
        ready, _, _ = select.select([self.process.stderr], [], [], LONGEST)
        return self.process.stderr.readline().decode() if ready else ""

    def most_memory(self):
        """The most memory that it had, in bytes."""
        with open(f"/proc/{self.process.pid}/status", encoding="ascii") as file:
            return next(int(line.split()[1]) << 10 for line in file if line.startswith("VmHWM"))


def patched(tool, change):
    """A tool with another limit, as words to be run."""
    paths = [os.path.join(TOP, name) for name in ("tools", f"tools/{tool}")]
    with open("tool.py", "w", encoding="utf-8") as file:
        file.write(f"import runpy, sys\nsys.path.insert(0, {paths[0]!r})\nsys.argv[0] = {paths[1]!r}\n{change}\n"
                   f"runpy.run_path({paths[1]!r}, run_name='__main__')\n")
    return sys.executable, "tool.py"


def files_of(capture="my.cap", replies="my.replies"):
    """What was sent and what came back, by connection and session."""
    with open(capture, "rb") as one, open(replies, "rb") as other:
        read, answered = read_capture(Part("capture", one.read())), read_replies(Part("replies", other.read()))
    sent = {(number, 0): b"" for number in range(read.count)}
    sessions = [0] * read.count
    for record in read.records:
        number = record.connection
        if isinstance(record, Segment):
            sent[number, sessions[number]] += record.text
        else:
            sessions[number] += 1
            sent[number, sessions[number]] = b""
    return sent, {(output.connection, output.session): output.text for output in answered.outputs}
