"""When a `no` of the proved program is passed over, as a right server may have given these answers.

The program takes each command to have come to a memcached that executed it or refused it by its answer, once the
command was whole. A proxy, a connection that was not served, or a line that the server reads otherwise breaks that. The search
then says what it finds, and its `no` is not proved.
"""
from __future__ import annotations

from zygos_tools.judging.asking import Answer
from zygos_tools.judging.doubts import firsts_of, is_entering
from zygos_tools.judging.reading import Recording
from zygos_tools.judging.seeing import FAILED, SERVER_ERROR

# what is counted of sessions of which the server served nothing
NOT_SERVED = ("commands of refused connections left out", "commands of connections without an authentication left out")


def is_doubtful(recording: Recording, answer: Answer, loses: bool) -> bool:
    """Whether a right server may have given the answers that the program refused; with `loses` it may lose items."""
    if any(recording.notes[name] for name in NOT_SERVED) or recording.odd or recording.forgetting and not loses:
        return True
    sessions = recording.surplus | recording.outside.keys()
    found = answer.found
    if found["of_session"]:
        return (int(found["connection"]), int(found["session"])) in sessions
    if found["rule"]:
        return any(2 * int(found["record"]) in recording.marks.get(session, ()) for session in sessions)
    keys = answer.keys(recording)
    if not keys:
        return any(connection == int(found["where"]) for connection, _ in sessions)
    return any(key in recording.unsure or key in doubtful_keys(recording) for key in keys)


def doubtful_keys(recording: Recording) -> set[bytes]:
    """The keys of commands that may have been authentications, that a proxy may have passed on although it said that
    they failed, and that a memcached began to execute before they were whole."""
    table = recording.table
    found = {*recording.entered, *(one for one in firsts_of(recording) if is_entering(recording, one))}
    for one, state in enumerate(table.state):
        answer = table.answer(one) or b""
        if answer.startswith(SERVER_ERROR) and (not answer.startswith(FAILED) or one in recording.early):
            found.add(one)
    return {table.keys[table.key[call]] for one in found for call in table.calls_of(one) if table.key[call] >= 0}
