"""The replay script as it grows: a transcript, each call with its answer after it."""
from functools import cache

from document.block import block_of, knots_of
from document.hold import hold
from document.readings import hold_rewritten
from document.reel import Reel, hold_standing
from stored.replay_lines import (
    LENT, answer_to, hex_of, kind_of_answer, line_for, line_of, line_of_shown, line_of_sum, line_of_view,
)


@cache
def hold_written_and_read(knots):
    hold(tuple(knots_of(block_of(knots))) == knots, "read(write(reel)) of", knots)


def accepted_blocks(line, answer):
    """The blocks of a line that read accepts, and that of a sum."""
    name, *fields = line.split(" ")
    match name:
        case "read" if answer == "accepted":
            return fields
        case "same" if answer in ("yes", "no"):
            return fields
        case "view" | "viewat" if answer.startswith(("view", "reading", "past")):
            return fields[:1]
        case "combine" if answer.startswith("combined"):
            return fields[2:] + answer.split(" ")[1:]
        case "combine" if answer != "unreadable":
            return fields[2:]
    return []


class Transcript:
    """Calls on one reel that starts empty, each held against what is known of it before it is put down."""

    def __init__(self):
        self.reel, self.lines, self.answers = Reel(), [], []
        self.round_trips, self.unseen, self.turn = 0, 0, 0

    def passed_over(self, line):
        hold(answer_to(line.encode(), self.reel) is None, "not passed over:", line)
        self.lines.append(line)

    def call(self, line, expected=None):
        """It returns the answer, after which a look may stand. If only its kind is expected, a 6 may have any spot."""
        before = list(self.reel.knots)
        answer = answer_to(line.encode(), self.reel)
        known = expected in (None, answer, kind_of_answer(answer))
        hold(known, line[:200], "answers", answer[:200], "and not", expected)
        self.lines += [line, f"= {answer}"]
        self.answers.append(answer)
        self.turn += 1
        hold(answer == "accepted" or self.reel.knots == before, "the reel changes at", line)
        hold_standing(tuple(self.reel.knots))
        self.hold_round_trips(line, answer)
        if answer == "unreadable" or answer.startswith("refused"):
            self.look_now_and_then()
        return answer

    def hold_round_trips(self, line, answer):
        """read(write(reel)) is the reel after every call; write(read(block)) is the block, of every accepted one of
        edition 1, and of edition 2 what is left of it without its readings."""
        hold_written_and_read(tuple(self.reel.knots))
        self.round_trips += 1
        for block in accepted_blocks(line, answer):
            hold_rewritten(bytes.fromhex(block))
            self.round_trips += 1

    def look_now_and_then(self):
        """After every fifth call that changes nothing, a write shows that nothing has changed."""
        self.unseen += 1
        length = len(block_of(self.reel.knots))
        if self.unseen >= 5 and length <= 100:
            self.unseen = 0
            self.write(length + self.turn % 3)

    def expect(self, refusal, name, *fields):
        """A call whose refusal, or 0, is known."""
        self.call(line_for(name, *fields), line_of(refusal))

    def try_block(self, number, block):
        """A read that is refused with this number, or accepted for 0, and then taken back."""
        if number:
            self.expect(number, "read", block)
        else:
            self.read_and_take_back(block)

    def read_and_take_back(self, block):
        """An accepted read, a write that shows what it left, and the reel as it was. To the looks this is one call that
        changes nothing, so that the lines after it are the same whether a block is accepted or not."""
        before, turn = self.reel.knots, self.turn
        self.expect(0, "read", block)
        self.write(len(block_of(self.reel.knots)))
        self.hold_knots(*before)
        self.turn = turn + 1
        self.look_now_and_then()

    def view(self, shown, block, k, n):
        """The view of knot k shows these readings, or has this refusal."""
        self.call(line_for("view", block, k, n), line_of_view(shown))

    def view_at(self, shown, block, k, n, i):
        """The i-th of them is the one in this list, or there is none; or the view has this refusal."""
        self.call(line_for("viewat", block, k, n, i), line_of_shown(shown))

    def combine(self, answer, alpha, beta, block, other):
        """The sum of the reels of two blocks has the knots in this list, or has this refusal."""
        self.call(line_for("combine", alpha, beta, block, other), line_of_sum(answer))

    def read_sum(self):
        """The sum that was just answered is read: from here on it is the reel."""
        kind, block = self.answers[-1].split(" ")
        hold(kind == "combined", "no sum to read:", self.answers[-1])
        self.call(f"read {block}", "accepted")

    def unreadable(self, *lines):
        for line in lines:
            self.call(line, "unreadable")

    def ask(self, *positions):
        """Value and trend at these query positions."""
        for x in positions:
            self.call(line_for("value", x))
            self.call(line_for("trend", x))

    def expect_asked(self, number, *positions):
        """Value and trend there, both refused with this number."""
        for x in positions:
            self.expect(number, "value", x)
            self.expect(number, "trend", x)

    def add_up(self, *ranges):
        """The totals of these ranges i, j."""
        for i, j in ranges:
            self.call(line_for("total", i, j))

    def expect_added(self, number, *ranges):
        """The totals of these ranges, all refused with this number."""
        for i, j in ranges:
            self.expect(number, "total", i, j)

    def write(self, room):
        """Into that many lent bytes: the block and the lent bytes after it, or the lent bytes as they were."""
        block = block_of(self.reel.knots)
        if len(block) <= room:
            expected = f"wrote {len(block)} {hex_of(block + LENT * (room - len(block)))}"
        else:
            expected = f"refused 10 {hex_of(LENT * room)}"
        self.call(line_for("write", room), expected)

    def hold_knots(self, *knots):
        """From here on the reel has these knots."""
        self.expect(0, "read", block_of(knots))

    def text(self):
        """The last line is a call, without its answer and without a line feed."""
        return "\n".join(self.lines[:-1]).encode()
