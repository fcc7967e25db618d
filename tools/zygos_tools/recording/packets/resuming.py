"""Flows of recorded packets whose sessions begin anew after a loss, as soon as client and server are in step again.

A loss ends the stream of a session, or that of its answers. It is in step again with a packet of the client that begins
with a command, if the client has had an answer since its last packet, and has now all that the server sent. Commands
that it sent before may still have to be answered: so the first answers are passed over up to those that fit. If there
are none, all are left out.
"""
from __future__ import annotations

import re

from zygos_tools.protocol import pace
from zygos_tools.protocol.table import BY_WORD, NO_KIND
from zygos_tools.recording.packets.recorded import Answers, Flows, Packet, Session, Stream

# how a packet begins that begins with a command
COMMAND = re.compile(b"(?:%s) |(?:%s)[ \r\n]" % tuple(
    b"|".join(word for word, kind in BY_WORD.items() if bool(kind.key) == has_key) for has_key in (True, False)))


def is_cut(stream: Stream, place: int) -> bool:
    """Whether bytes of a stream were lost before a place that is at or after its end."""
    return max(stream.end(), place) > stream.size()


def is_in_step(session: Session, packet: Packet, place: int) -> bool:
    """Whether a packet begins with a command that the next answer of the server answers; `place` is what the client
    expects of the server."""
    answers = session.answers
    if not COMMAND.match(packet.payload):
        return False
    if answers is None or place > answers.end():  # bytes that were not recorded are the end of an answer
        return True
    return place == answers.end() and session.is_answered and answers.texts[-1].endswith(b"\n")


# how many answers are passed over at most, how many are compared with their commands, and how many are enough for that
# without any key in them
MOST_EARLY, MOST_COMPARED, SURE = 64, 32, 8


def fits(command: pace.Command, answer: pace.Answer) -> bool:
    """Whether an answer can be that of a command."""
    is_kind = BY_WORD.get(command.verb, NO_KIND).fits(answer.word)
    return is_kind and all(item[1] in command.words for item in answer.items if item[0] == b"VALUE")


def compared(session: Session) -> list[pace.Command]:
    """The first commands of a session that are surely answered, up to one of which it is not known."""
    found: list[pace.Command] = []
    for command in pace.Commands().feed(session.requests.text()):
        if command.answered == pace.PERHAPS or len(found) == MOST_COMPARED:
            break
        if command.answered == pace.ALWAYS:
            found.append(command)
    return found


def first_answer(session: Session) -> int | None:
    """Where the answers of a session begin that fit its commands; None where none do."""
    commands, begin = compared(session), 0
    answers = list(pace.Answers().feed(session.answers.text())) if session.answers else []
    for early in range(min(MOST_EARLY, len(answers)) + 1):
        pairs = list(zip(commands, answers[early:]))
        is_sure = not early or len(pairs) >= SURE or any(answer.items for _, answer in pairs)
        if is_sure and all(fits(command, answer) for command, answer in pairs):
            return begin
        begin = answers[early].end if early < len(answers) else begin
    return None


class Resuming(Flows):
    """The flows to a port, with sessions that begin anew."""

    def meet(self, packet: Packet, at: int) -> None:
        session = self.current(packet.flow)
        if session and packet.payload and not packet.is_syn:
            self.resume(session, packet, at)
        super().meet(packet, at)
        session = self.current(packet.flow)
        if packet.payload and session:
            session.is_answered = False

    def resume(self, session: Session, packet: Packet, at: int) -> None:
        """Begins a session anew with this packet, if the current one has a loss and this is a place for it."""
        begin, answers = session.requests.offset(packet, at), session.answers
        place = answers.place(packet.expected) if answers else 0
        is_new = begin >= session.requests.end()
        has_loss = is_new and (is_cut(session.requests, begin) or answers and is_cut(answers, place))
        if not has_loss or not is_in_step(session, packet, place):
            return
        session.requests.reach(begin)
        found = Session(packet)
        found.is_resumed = True
        if answers:
            answers.reach(place)
            found.answers = Answers(Packet(packet.flow, packet.expected, 0, b""))
        self.sessions[self.numbers[packet.flow]].append(found)

    def settle(self) -> None:
        """Passes over answers to commands that came before a session began anew."""
        for session in (one for found in self.sessions.values() for one in found if one.is_resumed and one.answers):
            begin = first_answer(session)
            session.early = begin if begin is not None else session.answers.size() if session.answers else 0
            session.is_misfit = begin is None
