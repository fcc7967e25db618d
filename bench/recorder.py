#!/usr/bin/env python3
"""Sends commands to a memcached, directly and through tools/record, and prints what the recorder costs.

20 clients, in four processes, each wait for the answer to a command before they send the next one: seven of ten are
`get`s, the others `set`s of 20 bytes, on 2,000 keys. Then there is one client. The runs are interleaved: directly,
through the recorder, through three processes of it, and with windows of 10,000 commands. Printed are the medians of
commands a second, of the recorder's processor time for a command, and of the time that one client waits, in us.

usage: bench/run recorder [--commands N] [--runs N]

--commands N  of all clients together (40000)
--runs N      the number of runs of each kind (3)
"""
import os
import random
import select
import shutil
import signal
import socket
import statistics
import subprocess
import sys
import tempfile
import time

import common

RECORD = os.path.join(os.path.dirname(common.HERE), "tools", "record")
KINDS = {"directly": None, "recorded": (), "3 processes": ("--processes", "3"), "windows": ("--every", "10000")}


def talk(port, clients, commands):
    """Lets clients of one process send commands. Gives how long each waited, in seconds."""
    loop, at, waited, sent = select.epoll(), {}, [], 0
    ones = {}
    for number in range(clients):
        one = socket.create_connection(("127.0.0.1", port))
        one.setsockopt(socket.IPPROTO_TCP, socket.TCP_NODELAY, 1)
        ones[one.fileno()] = one, random.Random(number)
        loop.register(one.fileno(), select.EPOLLIN)

    def ask(file):
        one, draw = ones[file]
        key = draw.randrange(2000)
        at[file] = time.perf_counter(), draw.random() < 0.7
        one.send(b"get key:%d\r\n" % key if at[file][1] else b"set key:%d 0 0 20\r\n%020d\r\n" % (key, key))

    for file in ones:
        ask(file)
    while len(waited) < commands:
        for file, _ in loop.poll():
            if ones[file][0].recv(4096).endswith(b"END\r\n" if at[file][1] else b"STORED\r\n"):
                waited.append(time.perf_counter() - at[file][0])
                sent += 1
                ask(file)
    return waited


def of_all(port, clients, commands):
    """Commands a second of clients in up to four processes."""
    count, begin = min(4, clients), time.perf_counter()
    children = []
    for _ in range(count):
        child = os.fork()
        if not child:
            talk(port, clients // count, commands // count)
            os._exit(0)
        children.append(child)
    for child in children:
        os.waitpid(child, 0)
    return commands / (time.perf_counter() - begin)


def used(number):
    """The processor time of a process and its children, in seconds."""
    with open(f"/proc/{number}/schedstat", encoding="ascii") as file:
        found = int(file.read().split()[0]) / 1e9
    with open(f"/proc/{number}/task/{number}/children", encoding="ascii") as file:
        return found + sum(used(int(child)) for child in file.read().split())


def measured(kind, port, commands):
    """Commands a second of 20 clients, the recorder's us of processor time for one, and the us that one client waits."""
    if kind is None:
        return of_all(port, 20, commands), 0, 1e6 * statistics.median(talk(port, 1, commands // 20))
    with tempfile.TemporaryDirectory() as room:
        words = ["--ends", "--server", f"127.0.0.1:{port}", "--listen", "127.0.0.1:0", *kind]
        names = [os.path.join(room, name) for name in ("my.cap", "my.replies")]
        with subprocess.Popen([sys.executable, RECORD, *words, *names], stderr=subprocess.PIPE) as recorder:
            through = int(recorder.stderr.readline().rsplit(b":", 1)[1])
            before = used(recorder.pid)
            rate = of_all(through, 20, commands)
            cost = 1e6 * (used(recorder.pid) - before) / commands
            waited = 1e6 * statistics.median(talk(through, 1, commands // 20))
            recorder.send_signal(signal.SIGINT)
            recorder.communicate()
    return rate, cost, waited


def main():
    words = common.Words(__doc__)
    words.add_argument("--commands", type=common.count, default=40000)
    words.add_argument("--runs", type=common.count, default=3)
    given = words.given()
    if not shutil.which("memcached"):
        common.stop("memcached is not installed")
    with socket.socket() as one:
        one.bind(("127.0.0.1", 0))
        port = one.getsockname()[1]
    user = ["-u", "nobody"] if os.geteuid() == 0 else []
    with subprocess.Popen(["memcached", "-l", "127.0.0.1", "-p", str(port), "-t", "4", *user]) as server:
        try:
            time.sleep(1)
            found = {name: [] for name in KINDS}
            for _ in range(given.runs):
                for name, kind in KINDS.items():
                    found[name].append(measured(kind, port, given.commands))
        finally:
            server.terminate()
    print(f"{'':12} {'commands a second':>18} {'us of processor':>16} {'us of one client':>17}")
    for name, rows in found.items():
        rate, cost, waited = (statistics.median(column) for column in zip(*rows))
        print(f"{name:12} {rate:18.0f} {cost:16.1f} {waited:17.1f}")
    print(f"load {os.getloadavg()[0]:.0f} on {os.cpu_count()} processors")


main()
