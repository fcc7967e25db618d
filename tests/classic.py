"""Lines of classic commands, with their answers."""
from certificates import FIRST, FIRST_TOLD

# what memcached 1.6.18 answers to some of the examples, by name: it shows another version and other uniques, pads what it
# counted down, and knows `touch`
MEMCACHED = {
    "a set and a gets": b"STORED\r\nVALUE a 0 1 1\r\nx\r\nEND\r\n",
    "the greatest value, and one byte more": b"SERVER_ERROR object too large for cache\r\nNOT_STORED\r\n"
                                             b"SERVER_ERROR object too large for cache\r\nEND\r\n",
    "a line that is too long": b"",
    "incr wraps": b"STORED\r\n0\r\nVALUE a 5 20\r\n0                   \r\nEND\r\n",
    "a block that does not end": b"CLIENT_ERROR bad data chunk\r\nVERSION 1.6.18\r\n",
    "cas": b"STORED\r\nEXISTS\r\nVALUE a 0 1 1\r\nx\r\nEND\r\nNOT_FOUND\r\nEXISTS\r\nVALUE a 0 1 1\r\nx\r\nEND\r\n",
    "faulty lines": b"ERROR\r\n" * 3 + b"CLIENT_ERROR bad command line format\r\nVERSION 1.6.18\r\nOK\r\nNOT_FOUND\r\n",
    "touch": b"STORED\r\nTOUCHED\r\nNOT_FOUND\r\nVALUE a 0 1\r\nx\r\nEND\r\n",
    "gat and gats": b"STORED\r\nVALUE a 5 1\r\nx\r\nEND\r\nVALUE a 5 1 1\r\nx\r\nEND\r\n",
    "version": b"VERSION 1.6.18\r\n",
    "the largest number": b"STORED\r\n18446744073709551615\r\n0\r\n7\r\nVALUE n 0 20\r\n7                   \r\nEND\r\n",
}


def counts(gets, sets, hits, misses, items):
    """The lines of `stats`."""
    return (b"STAT cmd_get %d\r\nSTAT cmd_set %d\r\nSTAT get_hits %d\r\nSTAT get_misses %d\r\nSTAT curr_items %d\r\nEND\r\n"
            % (gets, sets, hits, misses, items))


def examples(lines):
    """Has `lines` compare the answers to what was sent."""
    lines("a set and a gets", FIRST, FIRST_TOLD)
    lines("the same in segments of one byte", FIRST, FIRST_TOLD, size=1)
    lines("nothing after quit", b"quit\r\nget a\r\n", b"")
    lines("a key asked for twice", b"set a 0 0 1\r\nx\r\nget a a\r\n",
          b"STORED\r\nVALUE a 0 1\r\nx\r\nVALUE a 0 1\r\nx\r\nEND\r\n")
    lines("incr wraps", b"set a 5 0 20\r\n18446744073709551615\r\nincr a 1\r\nget a\r\n",
          b"STORED\r\n0\r\nVALUE a 5 1\r\n0\r\nEND\r\n")
    lines("decr stops at 0, and faults of counting",
          b"set a 0 0 1\r\n3\r\ndecr a 5\r\nset a 0 0 1\r\nx\r\ndecr a 5\r\nincr a z\r\nincr b 1\r\n",
          b"STORED\r\n0\r\nSTORED\r\nCLIENT_ERROR cannot increment or decrement non-numeric value\r\n"
          b"CLIENT_ERROR invalid numeric delta argument\r\nNOT_FOUND\r\n")
    lines("a block that does not end", b"set a 0 0 3\r\nabcXYversion\r\n",
          b"CLIENT_ERROR bad data chunk\r\nVERSION zygos-1.0\r\n")
    lines("keys of 250 and of 251 bytes", b"get " + b"k" * 250 + b"\r\nset " + b"k" * 251 + b" 0 0 1\r\nx\r\n",
          b"END\r\nCLIENT_ERROR bad command line format\r\nERROR\r\n")
    large = b"SERVER_ERROR object too large for cache\r\n"
    lines("the greatest value, and one byte more",
          b"set a 0 0 1048576\r\n" + b"y" * 1048576 + b"\r\nappend a 0 0 1\r\nz\r\nset b 0 0 1048577\r\n"
          + b"y" * 1048577 + b"\r\nget b\r\n", b"STORED\r\n" + large + large + b"END\r\n")
    lines("noreply where nothing is stored",
          b"set a 0 0 1 noreply\r\nxyzset a 0 0 1048577 noreply\r\n" + b"y" * 1048577 + b"\r\nget a\r\n", b"END\r\n")
    lines("noreply", b"set a 0 0 1 noreply\r\nx\r\nget a\r\n", b"VALUE a 0 1\r\nx\r\nEND\r\n")
    lines("cas", b"set a 0 0 1\r\nx\r\ncas a 0 0 1 99\r\ny\r\ngets a\r\ncas b 0 0 1 1\r\nz\r\ncas a 0 0 1 28\r\ny\r\ngets a\r\n",
          b"STORED\r\nEXISTS\r\nVALUE a 0 1 28\r\nx\r\nEND\r\nNOT_FOUND\r\nSTORED\r\nVALUE a 0 1 44\r\ny\r\nEND\r\n")
    lines("two keys with one hash, which begin alike",
          b"set session:149599 0 0 1\r\nx\r\nadd session:312382 0 0 1\r\ny\r\nget session:149599 session:312382\r\n"
          b"delete session:149599\r\nget session:149599 session:312382\r\n",
          b"STORED\r\nSTORED\r\nVALUE session:149599 0 1\r\nx\r\nVALUE session:312382 0 1\r\ny\r\nEND\r\n"
          b"DELETED\r\nVALUE session:312382 0 1\r\ny\r\nEND\r\n")
    lines("a request that does not end", b"set a 0 0 5\r\nab", b"")
    lines("add, replace, append and prepend",
          b"replace a 0 0 1\r\nx\r\nadd a 7 0 1\r\nx\r\nadd a 0 0 1\r\ny\r\nappend a 9 0 2\r\nyz\r\nprepend a 9 0 1\r\nw\r\nget a\r\n",
          b"NOT_STORED\r\nSTORED\r\nNOT_STORED\r\nSTORED\r\nSTORED\r\nVALUE a 7 4\r\nwxyz\r\nEND\r\n")
    lines("faulty lines", b"\r\nget\r\nset a 0 0\r\nset a x 0 1\r\n version \nverbosity 1\r\ntouch a 0\r\n",
          b"ERROR\r\n" * 3 + b"CLIENT_ERROR bad command line format\r\nVERSION zygos-1.0\r\nOK\r\nERROR\r\n")
    lines("a line that is too long", b"a" * 65537 + b"\n" + b"a" * 65536 + b"\nversion\r\n",
          b"CLIENT_ERROR line too long\r\nERROR\r\nVERSION zygos-1.0\r\n")
    lines("a session of a web page",
          b"set session:42 0 3600 11\r\nhello world\r\nget session:41 session:42 session:43\r\ndelete session:42 noreply\r\nget session:42\r\n",
          b"STORED\r\nVALUE session:42 0 11\r\nhello world\r\nEND\r\nEND\r\n")
    lines("version", b"version\r\n", b"VERSION zygos-1.0\r\n")
    lines("verbosity", b"verbosity 0\r\nverbosity\r\nverbosity x\r\nverbosity 0 noreply\r\nget a\r\n",
          b"OK\r\nERROR\r\nCLIENT_ERROR bad command line format\r\nEND\r\n")
    lines("flush_all", b"set a 0 0 1\r\nx\r\nset b 0 0 1\r\ny\r\nflush_all\r\nget a b\r\nadd a 0 0 1\r\nz\r\n"
          b"flush_all noreply\r\nget a\r\n", b"STORED\r\nSTORED\r\nOK\r\nEND\r\nSTORED\r\nEND\r\n")
    lines("touch", b"set a 0 0 1\r\nx\r\ntouch a 100\r\ntouch b 100\r\nget a\r\n",
          b"STORED\r\nERROR\r\nERROR\r\nVALUE a 0 1\r\nx\r\nEND\r\n")
    lines("gat and gats", b"set a 5 0 1\r\nx\r\ngat 100 a b\r\ngats 100 a\r\n", b"STORED\r\nERROR\r\nERROR\r\n")
    lines("incr and decr of text", b"set a 0 0 1\r\nx\r\nincr a 1\r\ndecr a 1\r\nget a\r\n",
          b"STORED\r\n" + b"CLIENT_ERROR cannot increment or decrement non-numeric value\r\n" * 2
          + b"VALUE a 0 1\r\nx\r\nEND\r\n")
    lines("the largest number", b"set n 0 0 20\r\n18446744073709551614\r\nincr n 1\r\nincr n 1\r\nincr n 7\r\nget n\r\n",
          b"STORED\r\n18446744073709551615\r\n0\r\n7\r\nVALUE n 0 1\r\n7\r\nEND\r\n")
    lines("counting with noreply", b"set n 3 0 2\r\n10\r\nincr n 1 noreply\r\ndecr n 3 noreply\r\nincr n 5\r\nget n\r\n",
          b"STORED\r\n13\r\nVALUE n 3 2\r\n13\r\nEND\r\n")
    lines("decr below zero", b"set n 0 0 1\r\n5\r\ndecr n 5\r\ndecr n 1\r\nget n\r\n",
          b"STORED\r\n0\r\n0\r\nVALUE n 0 1\r\n0\r\nEND\r\n")
    lines("a get of 100 keys", b"set k77 1 0 2\r\nhi\r\nget " + b" ".join(b"k%02d" % at for at in range(100)) + b"\r\n",
          b"STORED\r\nVALUE k77 1 2\r\nhi\r\nEND\r\n")
    lines("delete twice", b"set a 0 0 1\r\nx\r\ndelete a\r\ndelete a\r\ndelete a noreply\r\nget a\r\n",
          b"STORED\r\nDELETED\r\nNOT_FOUND\r\nEND\r\n")
    lines("a value of no bytes", b"set a 0 0 0\r\n\r\nget a\r\n", b"STORED\r\nVALUE a 0 0\r\n\r\nEND\r\n")
    lines("a length over 1 MB waits for its block", b"set a 0 0 1048577\r\n", b"")
