"""Tests tools/lie and tools/load: a right server answers as the model, each fault does what it is called after, and clients
wait for a server."""
import asyncio
import os
import subprocess
import unittest

from checks import LONGEST, cases, path_of, same, says
from zygos_tools.protocol.meaning import framed
from zygos_tools.trying.servers import CHANGES, FAULTS, Server


def server(fault):
    """A server whose fault strikes whenever it can."""
    one = FAULTS[fault](1) if fault else Server(1)
    one.happens = lambda share: True
    return one


def answered(one, *texts):
    """The answers to the commands of clients that send these texts at a time."""
    async def all_answered():
        return await asyncio.gather(*(one.answers([command for command, _ in framed(text)]) for text in texts))

    return asyncio.run(all_answered())


def sets(count, key=b"b"):
    return b"".join(b"set %s 0 0 1\r\n%d\r\n" % (key, at % 10) for at in range(count))


def shown(key, value):
    return b"VALUE %s 0 %d\r\n%s\r\nEND\r\n" % (key, len(value), value)


def right():
    text = b"set a 1 0 2\r\nhi\r\nget a b\r\nincr a 1\r\ndelete a\r\nmg a v\r\nflush_all\r\nversion\r\nnonsense\r\nget a\r\n"
    same("a right server", [b"STORED\r\n", b"VALUE a 1 2\r\nhi\r\nEND\r\n",
         b"CLIENT_ERROR cannot increment or decrement non-numeric value\r\n", b"DELETED\r\n", b"EN\r\n", b"OK\r\n"],
         answered(server(None), text)[0][:6])


def faults():
    """Each fault, as it strikes."""
    same("a stale read", [shown(b"a", b"1")], answered(server("stale"), sets(CHANGES + 2, b"a") + b"get a\r\n")[0][-1:])
    same("a dropped set", [b"STORED\r\n", b"END\r\n"], answered(server("dropped"), sets(1) + b"get b\r\n")[0])
    one = server("uncounted")
    answered(one, sets(1, b"n"))
    answered(one, b"incr n 1\r\n", b"incr n 1\r\n")
    same("two changes that count once", [shown(b"n", b"1")], answered(one, b"get n\r\n")[0])
    same("mixed answers", [b"END\r\n", b"STORED\r\n"], answered(server("mixed"), b"set a 0 0 1\r\nx\r\nget b\r\n")[0])
    one = server("swapped")
    answered(one, sets(1))
    same("swapped answers", [[shown(b"b", b"0")], [b"END\r\n"]], answered(one, b"get a\r\n", b"get b\r\n"))
    same("nobody to swap with", [[b"END\r\n"]], answered(one, b"get a\r\n"))
    text = sets(1, b"a") + b"delete a\r\nget a\r\n" + sets(CHANGES) + b"get a\r\n"
    found = answered(server("resurrected"), text)[0]
    same("a deleted item that comes back", [b"DELETED\r\n", b"END\r\n", shown(b"a", b"0")], [*found[1:3], found[-1]])


def commands():
    """tools/lie prints where it listens, and ends after its connections; tools/load counts what it sent."""
    with subprocess.Popen([path_of("lie"), "--connections", "2"], stdout=subprocess.PIPE) as lie:
        place = lie.stdout.readline().decode().strip()
        ran = subprocess.run([path_of("load"), "--clients", "2", "--commands", "20", place], capture_output=True, check=False,
                             timeout=LONGEST)
        same("what tools/load says", (0, b"2 clients, 40 commands\n", b""), (ran.returncode, ran.stdout, ran.stderr))
        same("the end of tools/lie", 0, lie.wait(LONGEST))


def late_server():
    """Clients wait for a server that does not listen yet."""
    place = os.path.abspath("place")
    with subprocess.Popen([path_of("load"), "--clients", "1", "--commands", "3", place], stdout=subprocess.PIPE) as load:
        with subprocess.Popen([path_of("lie"), "--listen", place, "--connections", "1"], stdout=subprocess.PIPE) as lie:
            same("where it listens", f"{place}\n".encode(), lie.stdout.readline())
        same("clients that waited", (b"1 clients, 3 commands\n", 0), (load.stdout.read(), load.wait(LONGEST)))
    says("a place that is taken", "./: Address already in use; --listen names another place", "lie", "--listen", "./")


Tests = cases(right, faults, commands, late_server, has_folder=True)

if __name__ == "__main__":
    unittest.main()
