"""Edits of a run: of its entries, its holds and its outputs, each on its own."""
from zygos_tools.files.formats import Hold, capture, journal, replies_file, segment

# two connections with five calls: set a, get a and get b of one command; set b, get a
PAIR = capture(2, [segment(0, b"set a 0 0 1\r\nx\r\ngets a b\r\nversion\r\n"),
                   segment(1, b"set b 0 0 1\r\ny\r\nget a\r\n")])


def written(made, version=1):
    """The journal and the replies file of a run; its entries have rising stamps in their order."""
    entries = [one._replace(stamp=stamp) for stamp, one in enumerate(made.entries, 1)]
    return journal(entries, made.holds) + replies_file(version, made.outputs)


# ---- edits of the run of PAIR that makes the calls of connection 0 first, and what is wrong then


def wrong_entries(made):
    one, two, three, four, five = made.entries
    for name, entries, line in (
        ("the first two entries swapped", [two, one, three, four, five], "not-next entry 0"),
        ("two entries of a command swapped", [one, three, two, four, five], "not-next entry 1"),
        ("a get after the set of another connection", [one, two, four, three, five], "wrong-reply entry 3"),
        ("two entries of one connection swapped", [one, two, three, five, four], "not-next entry 3"),
        ("the first entry left out", [two, three, four, five], "not-next entry 0"),
        ("an entry in the middle of a command left out", [one, three, four, five], "not-next entry 1"),
        ("the last entry of a connection left out", [one, two, four, five], "missing connection 0 command 1"),
        ("the last entry left out", [one, two, three, four], "missing connection 1 command 1"),
        ("no entry", [], "missing connection 0 command 0"),
        ("the first entry doubled", [one, one, two, three, four, five], "not-next entry 1"),
        ("the last entry doubled", [one, two, three, four, five, five], "not-next entry 5"),
    ):
        yield name, made._replace(entries=entries), f"no {line}"


def wrong_fields(made):
    _, two, three, four, _ = made.entries
    for name, at, changed, line in (
        ("the reply of another call", 1, {"reply": three.reply}, "wrong-reply entry 1"),
        ("the reply of another connection", 4, {"reply": four.reply}, "wrong-reply entry 4"),
        ("another unique", 1, {"reply": two.reply._replace(unique=44)}, "wrong-reply entry 1"),
        ("other flags", 1, {"reply": two.reply._replace(flags=1)}, "wrong-reply entry 1"),
        ("another call", 3, {"call": two.call}, "not-next entry 3"),
        ("another shard", 0, {"shard": 5}, "not-next entry 0"),
        ("a shard that there is not", 0, {"shard": 255}, "not-next entry 0"),
        ("another connection", 3, {"connection": 0}, "not-next entry 3"),
        ("a connection that there is not", 3, {"connection": 2}, "not-next entry 3"),
        ("another command", 4, {"index": 2}, "not-next entry 4"),
        ("another part of the command", 4, {"part": 1}, "not-next entry 4"),
    ):
        edited = made.entries[at]._replace(**changed)
        yield name, made._replace(entries=[*made.entries[:at], edited, *made.entries[at + 1 :]]), f"no {line}"


def wrong_holds(made):
    first, second = made.holds
    for name, holds, line in (
        ("a hold doubled", [first, first, second], "wrong-holds connection 0"),
        ("a hold left out", [first], "wrong-holds connection 1"),
        ("no hold", [], "wrong-holds connection 0"),
        ("a hold of another connection", [first._replace(connection=1), second], "wrong-holds connection 0"),
        ("a hold of one command more", [first, second._replace(count=3)], "wrong-holds connection 1"),
        ("a hold of a connection that there is not", [first, second, Hold(4095, 0, 1)], "wrong-holds connection 4095"),
    ):
        yield name, made._replace(holds=holds), f"no {line}"


def wrong_twice(made):
    """Two things are wrong, and the first one is reported."""
    one, two, three, four, five = made.entries
    other, bad = two._replace(reply=three.reply), five._replace(reply=three.reply)
    short = [output._replace(text=output.text[:-1]) for output in made.outputs]
    for name, changed, line in (
        ("a wrong reply, and two entries swapped", {"entries": [one, other, three, five, four]}, "wrong-reply entry 1"),
        ("two entries swapped, and a wrong reply", {"entries": [two, one, three, four, bad]}, "not-next entry 0"),
        ("a wrong reply to a wrong call", {"entries": [one, other._replace(part=1), *made.entries[2:]]},
         "not-next entry 1"),
        ("a wrong reply, and no last entry", {"entries": [one, other, three, four]}, "wrong-reply entry 1"),
        ("no last entry of both", {"entries": [one, two, four]}, "missing connection 0 command 1"),
        ("no last entry, and short outputs", {"entries": [one, two, three, four], "outputs": short},
         "missing connection 1 command 1"),
        ("short outputs", {"outputs": short}, f"wrong-output connection 0 at {len(short[0].text)}"),
        ("a short output, and no holds", {"outputs": [made.outputs[0], short[1]], "holds": []},
         f"wrong-output connection 1 at {len(short[1].text)}"),
    ):
        yield name, made._replace(**changed), f"no {line}"


def wrong_outputs(made):
    """Of each connection the outputs of its sessions, edited."""
    first, second = [output.text for output in made.outputs]
    for name, texts, line in (
        ("two outputs swapped", [[second], [first]], "connection 0 at 19"),
        ("an output left out", [[first]], "connection 1 at 0"),
        ("no output", [], "connection 0 at 0"),
        ("an output too many", [[first], [second], [b""]], "connection 2 at 0"),
        ("an output of a session too many", [[first, b""], [second]], "connection 0 session 1 at 0"),
        ("an output without its last byte", [[first], [second[:-1]]], f"connection 1 at {len(second) - 1}"),
        ("an output with a byte more", [[first + b"x"], [second]], f"connection 0 at {len(first)}"),
        ("an output twice", [[first], [second + second]], f"connection 1 at {len(second)}"),
    ):
        yield name, texts, f"no wrong-output {line}"


# ---- edits of any run


def list_edits(items):
    """A list with an item left out, with one doubled, and with one after the next, for each of its items."""
    for at in range(len(items)):
        yield f"{at} left out", items[:at] + items[at + 1 :]
        yield f"{at} doubled", items[: at + 1] + items[at:]
        yield f"{at} after the next", items[:at] + items[at + 1 : at + 2] + items[at : at + 1] + items[at + 2 :]


def other_replies(entries):
    """Entries of which one has the reply of one of another connection."""
    for at, one in enumerate(entries):
        for number, other in enumerate(entries):
            if one.connection != other.connection:
                edited = one._replace(reply=other.reply)
                yield f"{at} with the reply of {number}", [*entries[:at], edited, *entries[at + 1 :]]


def all_edits(made):
    """A run with its entries, its holds, or the texts of its outputs edited."""
    for name, entries in (*list_edits(made.entries), *other_replies(made.entries)):
        yield f"entry {name}", made._replace(entries=entries)
    for name, holds in list_edits(made.holds):
        yield f"hold {name}", made._replace(holds=holds)
    last = made.outputs[-1:]
    places = made.outputs + [output._replace(session=output.session + 1) for output in last]
    for name, outputs in list_edits(made.outputs):
        texts = [place._replace(text=output.text) for place, output in zip(places, outputs)]
        yield f"output {name}", made._replace(outputs=texts)
