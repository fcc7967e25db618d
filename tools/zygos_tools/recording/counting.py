"""Counts the commands and the answers of a connection that is recorded, and says whether any command is in flight.

The usual lines are counted by two patterns, and all else as `Pace` does, with the same result.
"""
from __future__ import annotations

import re

from zygos_tools.protocol.pace import ALWAYS, META, NEVER, ODD, PERHAPS, Answer, Pace
from zygos_tools.protocol.table import ERRORS

# a usual command with its line feed, but without its block. Its groups are the block's length and `noreply`; the length
# of a block with a unique; and the last word of a line that may have `noreply`
USUAL = re.compile(rb"(?:gets? [^\0\n]*|(?:set|add|replace|append|prepend) [^ \0\n]+ [^ \0\n]+ [^ \0\n]+ ([0-9]{1,9})"
                   rb"( noreply)?\r|cas [^ \0\n]+ [^ \0\n]+ [^ \0\n]+ ([0-9]{1,9}) [0-9]+\r"
                   rb"|(?:delete|incr|decr|touch)( [^ \0\n]+){1,2}\r)\n").match
# a usual answer with its line feed; of an item the group is the block's length
ANSWER = re.compile(rb"(?:VALUE [^ \0\n]+ [0-9]+ ([0-9]{1,9})(?: [0-9]+)?|END|STORED|NOT_STORED|NOT_FOUND|DELETED|EXISTS"
                    rb"|TOUCHED|OK|[0-9]+)\r\n").match
PLAIN = Answer(b"", [], 0)


class Count(Pace):
    """What passes on a connection, of which `owed` commands wait for their answer.

    A server may answer a command with an error line before the command is whole. This answer ends with the command:
    then `late` says how many answers end with the bytes that were sent last.
    """

    def __init__(self) -> None:
        super().__init__()
        self.has_tail = False  # commands came after the last one that is surely answered
        self.is_sure = True  # the last command that is surely answered is not a meta command
        self.early = self.late = 0

    def is_between(self) -> bool:
        """Whether the client has sent whole commands."""
        return not (self.commands.block or self.commands.begun)

    def is_quiet(self) -> bool:
        """Whether the server has executed all commands, since it answered the last one, and all is whole. So is a
        connection without text."""
        if not self.is_text:
            return True
        is_known = not (self.owed or self.has_tail or self.early) and (self.is_sure or not self.has_quiet)
        return is_known and self.is_between() and not (self.answers.block or self.answers.begun)

    def room(self, text: bytes) -> int:
        """How many of the next bytes of the client are of the current command, as far as that is known."""
        if self.commands.block:
            return min(self.commands.block, len(text))
        return text.find(b"\n") + 1 or len(text)

    # ---- commands

    def sent(self, text: bytes) -> int:
        """How many commands end in these further bytes of the client; a `quit` is none."""
        commands = self.commands
        if commands.block or commands.begun or commands.has_quit or self.is_new or not self.is_text or self.early:
            return self.any_sent(text)
        at, count, size = 0, 0, len(text)
        while at < size:
            found = USUAL(text, at)
            if found is None:
                return count + self.any_sent(text[at:])
            end, group = found.end(), found.lastindex
            if group in (1, 2, 3):
                end += int(found[1] or found[3]) + 2
                if end > size:
                    return count + self.any_sent(text[at:])
            if group == 2 or group == 4 and found[4] == b" noreply":
                self.has_tail = True
            else:
                self.waiting.append(False)
                self.has_tail, self.is_sure = False, True
            count += 1
            at = end
        return count

    def any_sent(self, text: bytes) -> int:
        """How many commands of any kind end in these bytes."""
        if self.is_new and text:
            self.is_new, self.is_text = False, text[0] not in ODD
            return self.sent(text)
        count, may_have_nul = 0, b"\0" in text or b"\0" in self.commands.begun
        for verb, answered, words, _ in self.commands.feed(text) if self.is_text else ():
            self.nuls += may_have_nul and any(b"\0" in word for word in words)
            if verb != b"quit":
                count += 1
                self.note(answered, verb in META)
        return count

    def note(self, answered: str, is_meta: bool) -> None:
        """Notes a command that is whole."""
        self.has_quiet |= answered == PERHAPS
        if self.early:
            self.late, self.early = self.late + self.early, 0
        elif answered == ALWAYS:
            self.waiting.append(is_meta)
            self.meta += is_meta
        self.has_tail = answered in (NEVER, PERHAPS)
        if answered == ALWAYS:
            self.is_sure = not is_meta

    # ---- answers

    def heard(self, text: bytes) -> int:
        """How many answers end in these further bytes of the server, besides those that end with their command."""
        if self.answers.block or self.answers.begun or self.commands.block or not self.is_text:
            return self.any_heard(text)
        at, count, size, waiting = 0, 0, len(text), self.waiting
        while at < size:
            found = ANSWER(text, at)
            if found is None:
                return count + self.any_heard(text[at:])
            end = found.end()
            if found.lastindex:
                end += int(found[1]) + 2
                if end > size:
                    return count + self.any_heard(text[at:])
                at = end
                if end + 5 != size or not text.endswith(b"END\r\n"):
                    continue
                end = size
            count += 1
            at = end
            if waiting and not self.meta and not self.has_quiet:
                waiting.popleft()
            else:
                self.take(PLAIN)
        return count

    def any_heard(self, text: bytes) -> int:
        """How many answers of any kind end in these bytes."""
        count = 0
        for answer in self.answers.feed(text) if self.is_text else ():
            if answer.word in ERRORS and self.commands.block and not self.waiting and not self.has_tail and not self.early:
                self.early = 1
                continue
            count += 1
            self.take(answer)
        return count

    def take(self, answer: Answer) -> None:
        super().take(answer)
        if self.has_quiet and self.is_sure and not self.has_tail and not self.owed:
            self.waiting.clear()
            self.meta, self.has_quiet = 0, False
