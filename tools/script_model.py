#!/usr/bin/env python3
"""A model of scripts, written from docs/SCRIPT.md and docs/RULES.md alone.

    script_model.py run        read a script on standard input and print the lines that `linewalk` must print for it
    script_model.py selftest   test the model itself, on scripts whose lines were worked out by hand
"""

import os
import re
import struct
import sys

from line_model import Board, Crew, Refused

WORDS, TRAYS = 1152, 1041
MOST_BYTES = 60_000

LAY_TICKETS, LAY_NOTES, POST_TICKET, POST_NOTE, GRANT_LANE, COLLECT, GRANT_COLLECTOR, SETTLE, DRAIN, REPORT = range(1, 11)
POST_OF = {LAY_TICKETS: POST_TICKET, LAY_NOTES: POST_NOTE}

# The first bytes of a record: its length and its kind.
FRONT = struct.Struct("<HH")

# The fields of a record, by kind.
BODIES = {
    kind: struct.Struct("<" + fields)
    for kind, fields in {
        LAY_TICKETS: "HHQ",
        LAY_NOTES: "HHQ",
        POST_TICKET: "HIII",
        POST_NOTE: "HHI",
        GRANT_LANE: "HH",
        COLLECT: "",
        GRANT_COLLECTOR: "H",
        SETTLE: "",
        DRAIN: "",
        REPORT: "",
    }.items()
}

FAULT_CODE = 4  # the tag of the only note that is no float
EXPONENT = 0x7F800000


class Fault(Exception):
    def __init__(self, number):
        self.number = number


def meets(fact, number):
    if not fact:
        raise Fault(number)


class ScriptWalk:
    """A script, performed record by record."""

    def __init__(self):
        self.crew = Crew()
        self.board = Board([0] * WORDS)
        self.trays = [None] * TRAYS
        self.laying = None  # the kind of the first record

    def record(self, script, at):
        """Performs the record that starts at this byte. Gives its line and where the next record starts."""
        length, kind, fields = self.read(script, at)
        try:
            return self.perform(kind, fields), at + length
        except Refused as refused:
            return f"refused {refused.number}", at + length

    def read(self, script, at):
        """The record that starts at this byte, with the tests for faults in their order."""
        left = len(script) - at
        meets(left >= FRONT.size, 14)
        length, kind = FRONT.unpack_from(script, at)
        meets(FRONT.size <= length <= left, 14)
        meets(kind in BODIES, 15)
        meets(length == FRONT.size + BODIES[kind].size, 14)
        meets(self.in_place(kind), 16)
        fields = BODIES[kind].unpack_from(script, at + FRONT.size)
        meets(allowed(kind, fields), 17)
        return length, kind, fields

    def in_place(self, kind):
        if self.laying is None or kind in POST_OF:
            return self.laying is None and kind in POST_OF
        if kind in (POST_TICKET, POST_NOTE):
            return kind == POST_OF[self.laying] and not self.crew.draining
        if kind == DRAIN:
            return not self.crew.draining
        if kind == REPORT:
            return self.crew.draining
        return True

    def perform(self, kind, fields):
        crew, board, trays = self.crew, self.board, self.trays
        if kind in POST_OF:
            self.laying = kind
            crew.lay(board, trays, *fields)
            return "laid"
        if kind in (POST_TICKET, POST_NOTE):
            lane, *payload = fields
            crew.begin_post(trays, lane, tuple(payload))
            return "begun"
        if kind == GRANT_LANE:
            lane, times = fields
            return f"L{lane} " + granted(times, lambda: crew.grant_lane(board, trays, lane))
        if kind == COLLECT:
            crew.begin_collect()
            return "begun"
        if kind == GRANT_COLLECTOR:
            (times,) = fields
            return "C " + granted(times, lambda: crew.grant_collector(board, trays))
        if kind == SETTLE:
            crew.settle()
            return "settled"
        if kind == DRAIN:
            crew.drain()
            return "draining"
        posted, delivered = crew.report()
        return f"report {posted} {delivered}"


def allowed(kind, fields):
    if kind in (GRANT_LANE, GRANT_COLLECTOR):
        return fields[-1] > 0
    if kind == POST_NOTE:
        _, tag, value = fields
        return tag == FAULT_CODE or 1 <= tag < FAULT_CODE and value & EXPONENT != EXPONENT
    return True


def granted(times, grant):
    """What is printed of up to so many grants, behind the name of the party."""
    for _ in range(times):
        ending = grant()
        if ending:
            number, *values = ending.answer()
            return " ".join(str(word) for word in [f"refused {number}" if number else ending.kind, *values])
    return "on"


def lines_of(script):
    """The lines that must be printed for a script. A collect that is still open at its end prints nothing, so it is left."""
    if len(script) > MOST_BYTES:
        return ["fault 18 at 0"]
    walk, lines, at = ScriptWalk(), [], 0
    while at < len(script):
        try:
            line, after = walk.record(script, at)
        except Fault as fault:
            lines.append(f"fault {fault.number} at {at}")
            break
        lines.append(line)
        at = after
    return lines


# --- the model's own test -------------------------------------------------------------------------------------------

# Records that the worked scripts are made of, in bytes. `TICKETS` and `NOTES` lay one lane of two cells with start 0.
NAMED = {
    "TICKETS": "10 00 01 00  01 00 02 00  00 00 00 00 00 00 00 00",
    "NOTES": "10 00 02 00  01 00 02 00  00 00 00 00 00 00 00 00",
    "WIDE": "10 00 01 00  02 00 02 00  00 00 00 00 00 00 00 00",  # two lanes of two cells
    "LONG": "10 00 01 00  01 00 03 00  00 00 00 00 00 00 00 00",  # one lane of three cells
    "UNLAID": "10 00 01 00  00 00 02 00  00 00 00 00 00 00 00 00",  # no lanes
    "POST": "12 00 03 00  00 00  01 00 00 00  02 00 00 00  03 00 00 00",
    "POST1": "12 00 03 00  01 00  01 00 00 00  02 00 00 00  03 00 00 00",
    "NOTE": "0c 00 04 00  00 00  04 00  2a 00 00 00",
    "GRANT": "08 00 05 00  00 00  0d 00",  # lane 0, up to 13 times
    "GRANT1": "08 00 05 00  01 00  0d 00",
    "STEP": "08 00 05 00  00 00  01 00",  # lane 0, once
    "COLLECT": "04 00 06 00",
    "GC": "06 00 07 00  29 00",  # up to 41 times
    "GC1": "06 00 07 00  01 00",
    "SETTLE": "04 00 08 00",
    "DRAIN": "04 00 09 00",
    "REPORT": "04 00 0a 00",
}

# Scripts by named records and bytes, and the lines worked out for them.
WORKED = [
    ("", ""),
    # layings: the limits of lanes, cells and start, and what is refused beyond them
    ("TICKETS", "laid"),
    ("NOTES", "laid"),
    ("10 00 01 00 10 00 40 00 00 00 00 00 00 00 00 40", "laid"),
    ("10 00 02 00 10 00 40 00 00 00 00 00 00 00 00 40", "laid"),
    ("10 00 01 00 00 00 02 00 00 00 00 00 00 00 00 00", "refused 1"),
    ("10 00 01 00 11 00 02 00 00 00 00 00 00 00 00 00", "refused 1"),
    ("10 00 01 00 01 01 02 00 00 00 00 00 00 00 00 00", "refused 1"),
    ("10 00 02 00 01 00 01 00 00 00 00 00 00 00 00 00", "refused 1"),
    ("10 00 02 00 01 00 41 00 00 00 00 00 00 00 00 00", "refused 1"),
    ("10 00 02 00 01 00 02 01 00 00 00 00 00 00 00 00", "refused 1"),
    ("10 00 01 00 01 00 02 00 01 00 00 00 00 00 00 40", "refused 2"),
    ("10 00 01 00 01 00 02 00 00 00 00 00 00 00 00 80", "refused 2"),
    ("10 00 01 00 00 00 02 00 01 00 00 00 00 00 00 40", "refused 1"),
    # a laying that was refused: every later call gives 4, faults are as ever
    ("UNLAID POST GRANT COLLECT GC SETTLE DRAIN REPORT", "refused 1 | refused 4 | refused 4 | refused 4 | refused 4 | refused 4 | draining | refused 4"),
    ("UNLAID DRAIN POST", "refused 1 | draining | fault 16 at 20"),
    ("UNLAID TICKETS", "refused 1 | fault 16 at 16"),
    ("UNLAID NOTE", "refused 1 | fault 16 at 16"),
    # posts: a lone one has grants 1 to 9, a lane that is full ends at grant 1, used-up stamps at grant 2
    ("TICKETS POST GRANT", "laid | begun | L0 posted 0 9"),
    ("NOTES NOTE GRANT", "laid | begun | L0 posted 0 9"),
    ("TICKETS POST 08 00 05 00 00 00 ff ff", "laid | begun | L0 posted 0 9"),
    ("TICKETS POST 08 00 05 00 00 00 08 00 STEP STEP", "laid | begun | L0 on | L0 posted 0 9 | refused 7"),
    ("TICKETS POST 08 00 05 00 00 00 09 00", "laid | begun | L0 posted 0 9"),
    ("TICKETS POST GRANT POST GRANT GRANT", "laid | begun | L0 posted 0 9 | begun | L0 refused 8 1 | refused 7"),
    ("10 00 01 00 01 00 02 00 00 00 00 00 00 00 00 40 POST STEP STEP STEP", "laid | begun | L0 on | L0 refused 9 2 | refused 7"),
    ("10 00 01 00 01 00 02 00 ff ff ff ff ff ff ff 3f POST GRANT", "laid | begun | L0 posted 4611686018427387903 9"),
    ("10 00 01 00 01 00 02 00 08 07 06 05 04 03 02 01 POST GRANT", "laid | begun | L0 posted 72623859790382856 9"),
    ("WIDE POST1 GRANT1 POST GRANT", "laid | begun | L1 posted 0 9 | begun | L0 posted 1 9"),
    ("TICKETS GRANT POST POST POST1 GRANT1", "laid | refused 7 | begun | refused 6 | refused 5 | refused 5"),
    ("TICKETS 08 00 05 00 ff ff 01 00", "laid | refused 5"),
    ("10 00 01 00 10 00 02 00 00 00 00 00 00 00 00 00 12 00 03 00 0f 00 00 00 00 00 00 00 00 00 00 00 00 00 08 00 05 00 0f 00 0d 00", "laid | begun | L15 posted 0 9"),
    # collects: an empty one has a grant for each lane; one lane's only frame is delivered with 1 + 2 + 3 grants
    ("TICKETS COLLECT GC SETTLE", "laid | begun | C empty 1 | settled"),
    ("WIDE COLLECT GC1 GC1 SETTLE", "laid | begun | C on | C empty 2 | settled"),
    ("TICKETS POST GRANT COLLECT 06 00 07 00 05 00 GC SETTLE", "laid | begun | L0 posted 0 9 | begun | C on | C delivered 0 0 6 | settled"),
    ("TICKETS POST GRANT COLLECT 06 00 07 00 ff ff SETTLE", "laid | begun | L0 posted 0 9 | begun | C delivered 0 0 6 | settled"),
    # lane 1 is the one kept, so lane 0 is looked at twice: 2 + 1 + 2 + 3 grants
    ("WIDE POST1 GRANT1 COLLECT GC", "laid | begun | L1 posted 0 9 | begun | C delivered 1 0 8"),
    # the second scan finds an older frame than the first
    ("WIDE COLLECT GC1 POST GRANT POST1 GRANT1 GC", "laid | begun | C on | begun | L0 posted 0 9 | begun | L1 posted 1 9 | C delivered 0 0 8"),
    # two frames in a lane: the second post finds the older one at grant 8, and the first collect loads the front
    ("LONG POST GRANT POST GRANT COLLECT GC SETTLE COLLECT GC", "laid | begun | L0 posted 0 9 | begun | L0 posted 1 8 | begun | C delivered 0 0 7 | settled | begun | C delivered 0 1 6"),
    # a frame that is collected while its post is under way: the post ends at grant 7
    ("LONG POST GRANT POST 08 00 05 00 00 00 05 00 COLLECT GC SETTLE COLLECT GC SETTLE GRANT", "laid | begun | L0 posted 0 9 | begun | L0 on | begun | C delivered 0 0 7 | settled | begun | C delivered 0 1 6 | settled | L0 posted 1 7"),
    # a post whose slot is changed between look and swap, twice: grant 13 ends it
    ("LONG POST GRANT POST 08 00 05 00 00 00 06 00 COLLECT GC SETTLE 08 00 05 00 00 00 06 00 COLLECT GC SETTLE STEP", "laid | begun | L0 posted 0 9 | begun | L0 on | begun | C delivered 0 0 7 | settled | L0 on | begun | C delivered 0 1 6 | settled | L0 posted 1 13"),
    # a collect whose slot is changed between look and swap tries again: 1 + 2 + 4 + 4 grants
    ("LONG POST GRANT COLLECT 06 00 07 00 04 00 POST GRANT GC", "laid | begun | L0 posted 0 9 | begun | C on | begun | L0 posted 1 9 | C delivered 0 0 11"),
    ("TICKETS COLLECT COLLECT SETTLE GC COLLECT GC SETTLE SETTLE GC COLLECT", "laid | begun | refused 10 | refused 12 | C empty 1 | refused 10 | refused 11 | settled | refused 11 | refused 11 | begun"),
    # drains and reports
    ("TICKETS DRAIN REPORT REPORT", "laid | draining | report 0 0 | report 0 0"),
    ("TICKETS POST GRANT COLLECT GC SETTLE DRAIN REPORT", "laid | begun | L0 posted 0 9 | begun | C delivered 0 0 6 | settled | draining | report 1 1"),
    ("TICKETS POST GRANT POST GRANT DRAIN COLLECT GC SETTLE REPORT", "laid | begun | L0 posted 0 9 | begun | L0 refused 8 1 | draining | begun | C delivered 0 0 6 | settled | report 1 1"),
    ("TICKETS POST DRAIN REPORT GRANT REPORT COLLECT REPORT GC REPORT SETTLE REPORT", "laid | begun | draining | refused 13 | L0 posted 0 9 | refused 13 | begun | refused 13 | C delivered 0 0 6 | refused 13 | settled | report 1 1"),
    ("TICKETS COLLECT DRAIN REPORT GC REPORT SETTLE REPORT", "laid | begun | draining | refused 13 | C empty 1 | refused 13 | settled | report 0 0"),
    # 14: fewer than 4 bytes are left
    ("10", "fault 14 at 0"),
    ("10 00", "fault 14 at 0"),
    ("10 00 01", "fault 14 at 0"),
    ("TICKETS 04", "laid | fault 14 at 16"),
    ("TICKETS SETTLE 04 00 08", "laid | refused 11 | fault 14 at 20"),
    # 14: a length under 4
    ("00 00 00 00", "fault 14 at 0"),
    ("TICKETS 03 00 06 00", "laid | fault 14 at 16"),
    ("TICKETS 00 00 0b 00 00 00", "laid | fault 14 at 16"),
    # 14: past the end, by one byte, by 1 in the length's upper byte, and of an unknown kind
    ("10 00 01 00 01 00 02 00 00 00 00 00 00 00 00", "fault 14 at 0"),
    ("TICKETS 04 01 06 00", "laid | fault 14 at 16"),
    ("TICKETS 05 00 0b 00", "laid | fault 14 at 16"),
    ("TICKETS 06 00 07 00 01", "laid | fault 14 at 16"),
    # 14: not the length of the kind, which is tested before place and fields
    ("11 00 01 00 01 00 02 00 00 00 00 00 00 00 00 00 00", "fault 14 at 0"),
    ("0f 00 02 00 01 00 02 00 00 00 00 00 00 00 00", "fault 14 at 0"),
    ("TICKETS 10 00 03 00 00 00 00 00 00 00 00 00 00 00 00 00", "laid | fault 14 at 16"),
    ("NOTES 12 00 04 00 00 00 04 00 00 00 00 00 00 00 00 00 00 00", "laid | fault 14 at 16"),
    ("TICKETS 06 00 05 00 01 00", "laid | fault 14 at 16"),
    ("TICKETS 05 00 06 00 00", "laid | fault 14 at 16"),
    ("TICKETS 04 00 07 00", "laid | fault 14 at 16"),
    ("TICKETS 08 00 07 00 01 00 00 00", "laid | fault 14 at 16"),
    ("TICKETS 06 00 08 00 00 00", "laid | fault 14 at 16"),
    ("05 00 09 00 00", "fault 14 at 0"),
    ("TICKETS 05 00 0a 00 00", "laid | fault 14 at 16"),
    # 15: unknown kinds, of any length that is there
    ("04 00 00 00", "fault 15 at 0"),
    ("04 00 0b 00", "fault 15 at 0"),
    ("10 00 01 01 01 00 02 00 00 00 00 00 00 00 00 00", "fault 15 at 0"),
    ("TICKETS 04 00 00 00", "laid | fault 15 at 16"),
    ("TICKETS SETTLE 09 00 0b 00 00 00 00 00 00 SETTLE", "laid | refused 11 | fault 15 at 20"),
    ("TICKETS 04 00 ff ff", "laid | fault 15 at 16"),
    # 16: a first record of a kind above 2
    ("POST", "fault 16 at 0"),
    ("NOTE", "fault 16 at 0"),
    ("GRANT", "fault 16 at 0"),
    ("COLLECT", "fault 16 at 0"),
    ("GC", "fault 16 at 0"),
    ("SETTLE", "fault 16 at 0"),
    ("DRAIN", "fault 16 at 0"),
    ("REPORT", "fault 16 at 0"),
    # 16: a second laying, the other payload's post, a post after the drain, a second drain, a report before it
    ("TICKETS TICKETS", "laid | fault 16 at 16"),
    ("TICKETS NOTES", "laid | fault 16 at 16"),
    ("NOTES COLLECT TICKETS", "laid | begun | fault 16 at 20"),
    ("TICKETS NOTE", "laid | fault 16 at 16"),
    ("NOTES POST", "laid | fault 16 at 16"),
    ("TICKETS DRAIN POST", "laid | draining | fault 16 at 20"),
    ("NOTES DRAIN NOTE", "laid | draining | fault 16 at 20"),
    ("TICKETS DRAIN DRAIN", "laid | draining | fault 16 at 20"),
    ("TICKETS REPORT", "laid | fault 16 at 16"),
    # 16 comes before 17
    ("08 00 05 00 00 00 00 00", "fault 16 at 0"),
    ("TICKETS 0c 00 04 00 00 00 00 00 00 00 00 00", "laid | fault 16 at 16"),
    ("NOTES DRAIN 0c 00 04 00 00 00 05 00 00 00 00 00", "laid | draining | fault 16 at 20"),
    # 17: times 0, which comes before what the line refuses; 256 is not 0
    ("TICKETS POST 08 00 05 00 00 00 00 00", "laid | begun | fault 17 at 34"),
    ("TICKETS 08 00 05 00 07 00 00 00", "laid | fault 17 at 16"),
    ("TICKETS POST 08 00 05 00 00 00 00 01", "laid | begun | L0 posted 0 9"),
    ("TICKETS COLLECT 06 00 07 00 00 00", "laid | begun | fault 17 at 20"),
    ("TICKETS COLLECT 06 00 07 00 00 01", "laid | begun | C empty 1"),
    # 17: tags
    ("NOTES 0c 00 04 00 00 00 00 00 00 00 00 00", "laid | fault 17 at 16"),
    ("NOTES 0c 00 04 00 00 00 05 00 00 00 00 00", "laid | fault 17 at 16"),
    ("NOTES 0c 00 04 00 00 00 01 01 00 00 00 00", "laid | fault 17 at 16"),
    ("NOTES 0c 00 04 00 09 00 ff ff 00 00 80 7f", "laid | fault 17 at 16"),
    ("NOTES 0c 00 04 00 09 00 01 00 00 00 00 00", "laid | refused 5"),
]

# The bits of a note, and whether the tags 1 to 3 allow them: those of both infinities and of NaNs have only ones in the
# exponent. Tag 4 allows all.
BITS = [
    ("00 00 80 7f", False),  # 7F800000
    ("00 00 80 ff", False),  # FF800000
    ("01 00 80 7f", False),  # 7F800001
    ("00 00 c0 7f", False),  # 7FC00000
    ("ff ff ff ff", False),
    ("ff ff 7f 7f", True),  # 7F7FFFFF
    ("ff ff 7f ff", True),  # FF7FFFFF
    ("ff ff 7f 00", True),  # 007FFFFF
    ("80 7f 00 00", True),
    ("00 00 00 80", True),
    ("00 00 00 00", True),
    # all ones but one in the exponent
    *((bits, True) for bits in ("00 00 80 3f", "00 00 80 5f", "00 00 80 6f", "00 00 80 77")),
    *((bits, True) for bits in ("00 00 80 7b", "00 00 80 7d", "00 00 80 7e", "00 00 00 7f")),
]


def bytes_of(words):
    """The bytes of a script that is given by named records and bytes."""
    return bytes.fromhex(" ".join(NAMED.get(word, word) for word in words.split()))


def worked_scripts():
    yield from ((bytes_of(words), lines.split(" | ") if lines else []) for words, lines in WORKED)
    for bits, is_number in BITS:
        for tag in (1, 2, 3, 4):
            good = is_number or tag == 4
            yield bytes_of(f"NOTES 0c 00 04 00 00 00 0{tag} 00 {bits}"), ["laid", "begun" if good else "fault 17 at 16"]
    # 14,996 settlings behind a laying make 60,000 bytes
    longest, lines = bytes_of("TICKETS" + 14_996 * " SETTLE"), ["laid"] + 14_996 * ["refused 11"]
    assert len(longest) == 60_000
    yield longest, lines
    yield longest[:-1], lines[:-1] + ["fault 14 at 59996"]
    yield longest + b"\0", ["fault 18 at 0"]
    yield longest + bytes_of("SETTLE"), ["fault 18 at 0"]
    yield bytes(60_000), ["fault 14 at 0"]
    yield bytes(60_001), ["fault 18 at 0"]
    yield bytes(65_536 + 16), ["fault 18 at 0"]


def example():
    """The script and the lines that stand in docs/SCRIPT.md, ahead of the same in words."""
    path = os.path.join(os.path.dirname(os.path.abspath(__file__)), "..", "docs", "SCRIPT.md")
    with open(path, encoding="utf-8") as file:
        dump, lines, _in_words = re.findall(r"```\n(.*?)```", file.read().split("## An example")[1], re.DOTALL)
    rows = [re.match(r"(?:[0-9a-f]{2} {1,2})+", row) for row in (row + " " for row in dump.splitlines())]
    return bytes.fromhex("".join(row.group() for row in rows if row)), lines.splitlines()


def selftest():
    script, lines = example()
    assert len(script) == 64 and len(lines) == 8
    count = 0
    for script, lines in [(script, lines), *worked_scripts()]:
        count += 1
        assert lines_of(script) == lines, f"{script[:200].hex(' ')}\nworked out: {lines[:20]}\nthe model:  {lines_of(script)[:20]}"
    print(f"the model of scripts has the lines of {count} worked scripts")
    return 0


def run():
    for line in lines_of(sys.stdin.buffer.read()):
        print(line)
    return 0


def main(args):
    if args in (["run"], ["selftest"]):
        return {"run": run, "selftest": selftest}[args[0]]()
    print("script_model.py run | selftest", file=sys.stderr)
    return 1


if __name__ == "__main__":
    sys.exit(main(sys.argv[1:]))
