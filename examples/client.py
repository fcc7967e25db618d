"""The two clients of examples/client.cap, by the library pymemcache.

usage: python3 examples/client.py PORT     (of tools/record, before an empty memcached)
"""
import sys

from pymemcache.client.base import Client

address = "127.0.0.1", int(sys.argv[1])
web, jobs = Client(address, default_noreply=False), Client(address, default_noreply=True)

for page in range(12):
    key = f"page:{page}"
    assert web.get(key) is None
    web.set(key, f"<html>page {page}: {'words ' * page}</html>", expire=3600, flags=page)
    web.get(key)
    jobs.set(f"job:{page}", "0")
    jobs.incr(f"job:{page}", page, noreply=False)
    web.get_many([f"page:{number}" for number in range(page + 2)])
    if page % 3 == 0:
        web.add(key, "another")
        web.replace(key, "replaced")
        web.append(key, " and more")
        web.prepend(key, "first, ")
        web.get(key)
    if page % 4 == 1:
        web.delete(key)
        web.delete(key)
        web.get(key)
        web.replace(key, "gone")
        web.append(key, "gone")
    jobs.set(f"queue:{page}", b"\x00\x01binary\xff\r\n", noreply=page % 2 == 0)
    jobs.get(f"queue:{page}")
    jobs.incr(f"job:{page}", 100 if page else (1 << 64) - 1, noreply=False)
    jobs.get(f"job:{page}")
    jobs.delete(f"queue:{page}")
    jobs.get(f"queue:{page}")
    web.set(f"user:{page}", "x" * (100 * page), expire=0)
    jobs.decr("job:none", 1, noreply=False)

web.get_many([f"user:{number}" for number in range(12)])
jobs.set("empty", "")
jobs.get("empty")
jobs.version()
web.quit()
jobs.quit()
