#!/usr/bin/env python3
"""A model of the line, written from docs/RULES.md alone, and the lists of calls that `walks` is run on.

    line_model.py generate [--reports] STDIN STDOUT   write the lists of calls, and what they must answer
    line_model.py verify [--reports] STDIN STDOUT     compare both files with what the model says; status 1 if they differ
    line_model.py selftest                            test the model itself, against the rules' own consequences

With --reports the lists are others, and have reports among their calls.

The lists. A list begins with `line WORDS TRAYS`, ends with `end`, and has one call on each line between:

    lay N K START         lay a line
    post LANE PAYLOAD     begin a post
    grant LANE TIMES      grant the lane, up to TIMES times, stopping at an answer other than on
    collect               begin a collect; its receipt is kept
    gc TIMES              grant the collector, likewise
    settle                settle with the receipt kept, or with another crew's if there is none
    drain                 drain the crew
    fill LANE             the fill of the lane
    report                both totals of the drained crew
    see TRAY              read a tray
    short W T CALL        make the call (lay, post, grant or gc) with another board of W words and other trays, T of them,
                          all 0; the generated ones are all refused

Each list has a crew of its own that was never laid, a board of at least WORDS words and TRAYS trays. Before the first call
word k of the board is (k + 1) * STEP modulo 2^64, and tray t is FIRST_TRAY + t. The lists lay no line that needs more than
WORDS words, so that every board that has them gives the same answers.

The answers. Each call gives one line: the number and the values of its answer. The line of `grant` and `gc` has the answer
to the last grant, with the number of grants asked for and a colon before it. `end` first grants a collect that is open to
its end and settles it, and then gives `same` and two digests, of the first WORDS words and of the trays.
"""

import sys

E = 2**64 - 1
STAMP_END = 2**62
MASK = 2**64 - 1
STEP = 0x9E3779B97F4A7C15
FIRST_TRAY = 7_000_000
ON = (0,)


# --- the line -------------------------------------------------------------------------------------------------------


class Board:
    """Words with the five calls of a board."""

    def __init__(self, words):
        self.words = list(words)

    def length(self):
        return len(self.words)

    def load(self, k):
        return self.words[k] if k < len(self.words) else E

    def store(self, k, v):
        assert 0 <= v <= MASK
        if k < len(self.words):
            self.words[k] = v

    def swap(self, k, a, b):
        if k < len(self.words) and self.words[k] == a:
            self.words[k] = b
            return True
        return False

    def take(self, k):
        if k >= len(self.words) or self.words[k] >= STAMP_END:
            return STAMP_END
        self.words[k] += 1
        return self.words[k] - 1


class Map:
    """Where the words and trays of a line of n lanes with K cells lie."""

    def __init__(self, n, cells):
        self.n, self.cells = n, cells
        self.words = 1 + 3 * n + n * cells
        self.trays = n + 1 + n * cells
        self.counter, self.collectors_hand = 0, n

    def slot(self, r):
        return 1 + r

    def head(self, r):
        return 1 + self.n + r

    def tail(self, r):
        return 1 + 2 * self.n + r

    def stamp(self, r, i):
        return 1 + 3 * self.n + r * self.cells + i

    def hand(self, r):
        return r

    def cell(self, r, i):
        return self.n + 1 + r * self.cells + i


class Refused(Exception):
    def __init__(self, number):
        self.number = number


def need(fact, number):
    if not fact:
        raise Refused(number)


class Operation:
    """A post or a collect under way. Its steps are a coroutine that makes one access for each grant and pauses after it;
    it is sent the board and the trays of each grant, and returns how the operation ends."""

    def __init__(self, steps):
        self.steps = steps
        self.grants = 0
        self.ending = None
        next(steps)

    def grant(self, board, trays):
        self.grants += 1
        try:
            self.steps.send((board, trays))
        except StopIteration as stop:
            self.ending = stop.value
        return self.ending


class Ending:
    def __init__(self, kind, lane=None, stamp=None, tries=0):
        self.kind, self.lane, self.stamp, self.tries = kind, lane, stamp, tries
        self.grants = 0

    def answer(self):
        return {
            "posted": (0, self.stamp, self.grants),
            "full": (8, self.grants),
            "used up": (9, self.grants),
            "empty": (0, self.grants),
            "delivered": (0, self.lane, self.stamp, self.grants),
        }[self.kind]


class Crew:
    """What the line keeps beside board and trays, with the calls of the line."""

    def __init__(self):
        self.map = None
        self.draining = False
        self.clear()

    def clear(self):
        n = self.map.n if self.map else 0
        self.tails, self.heads = [0] * n, [0] * n
        self.posts = {}
        self.collect = None
        self.posted = self.delivered = 0

    def fits(self, board, trays):
        return self.map.words <= board.length() and self.map.trays <= len(trays)

    # calls, each with its tests in their order

    def lay(self, board, trays, n, cells, start):
        assert not self.draining
        need(1 <= n <= 16 and 2 <= cells <= 64, 1)
        need(start <= STAMP_END, 2)
        need(self.collect is None, 10)
        new = Map(n, cells)
        need(new.words <= board.length() and new.trays <= len(trays), 3)
        self.map = new
        self.clear()
        for k in range(new.words):
            board.store(k, 0)
        board.store(new.counter, start)
        for r in range(n):
            board.store(new.slot(r), E)

    def begin_post(self, trays, lane, payload):
        assert not self.draining
        need(self.map, 4)
        need(self.map.trays <= len(trays), 3)
        need(lane < self.map.n, 5)
        need(lane not in self.posts, 6)
        trays[self.map.hand(lane)] = payload
        self.posts[lane] = Operation(self.post_steps(lane))

    def grant_lane(self, board, trays, lane):
        need(self.map, 4)
        need(self.fits(board, trays), 3)
        need(lane < self.map.n, 5)
        need(lane in self.posts, 7)
        ending = self.posts[lane].grant(board, trays)
        if ending is None:
            return None
        ending.grants = self.posts.pop(lane).grants
        if ending.kind == "posted":
            self.posted = min(self.posted + 1, MASK)
        return ending

    def begin_collect(self):
        need(self.map, 4)
        need(self.collect is None, 10)
        self.collect = Operation(self.collect_steps())

    def grant_collector(self, board, trays):
        need(self.map, 4)
        need(self.fits(board, trays), 3)
        need(self.collect and not self.collect.ending, 11)
        ending = self.collect.grant(board, trays)
        if ending is None:
            return None
        ending.grants = self.collect.grants
        if ending.kind == "delivered":
            self.delivered = min(self.delivered + 1, MASK)
        return ending

    def settle(self):
        need(self.map, 4)
        need(self.collect, 11)
        need(self.collect.ending, 12)
        ending = self.collect.ending
        self.collect = None
        return ending

    def drain(self):
        self.draining = True

    def fill(self, lane):
        need(self.map, 4)
        need(lane < self.map.n, 5)
        return (self.tails[lane] - self.heads[lane]) % self.map.cells

    def report(self):
        assert self.draining
        need(self.map, 4)
        need(not self.posts and self.collect is None and not any(self.fill(r) for r in range(self.map.n)), 13)
        return self.posted, self.delivered

    # the two operations, one access between two pauses

    def post_steps(self, r):
        at, ring = self.map, self.map.cells
        board, trays = yield
        if board.load(at.head(r)) % ring == (self.tails[r] + 1) % ring:
            return Ending("full", r)
        board, trays = yield
        own = board.take(at.counter)
        if own == STAMP_END:
            return Ending("used up", r)
        board, trays = yield
        trays[at.cell(r, self.tails[r])] = trays[at.hand(r)]
        board, trays = yield
        board.store(at.stamp(r, self.tails[r]), own)
        board, trays = yield
        self.tails[r] = (self.tails[r] + 1) % ring
        board.store(at.tail(r), self.tails[r])
        for tries in (1, 2):
            board, trays = yield
            seen = board.load(at.slot(r))
            board, trays = yield
            head = board.load(at.head(r)) % ring
            if head == self.tails[r]:
                break
            board, trays = yield
            if board.load(at.stamp(r, head)) != own:
                break
            board, trays = yield
            if board.swap(at.slot(r), seen, own):
                break
        return Ending("posted", r, own, tries)

    def collect_steps(self):
        at, ring = self.map, self.map.cells
        best, lane = E, None
        for r in range(at.n):
            board, trays = yield
            value = board.load(at.slot(r))
            if value < best:
                best, lane = value, r
        if lane is None:
            return Ending("empty")
        for r in range(lane):
            board, trays = yield
            value = board.load(at.slot(r))
            if value < best:
                best, lane = value, r
        board, trays = yield
        trays[at.collectors_hand] = trays[at.cell(lane, self.heads[lane])]
        board, trays = yield
        self.heads[lane] = (self.heads[lane] + 1) % ring
        board.store(at.head(lane), self.heads[lane])
        for tries in (1, 2):
            board, trays = yield
            seen = board.load(at.slot(lane))
            board, trays = yield
            fresh = E
            if board.load(at.tail(lane)) % ring != self.heads[lane]:
                board, trays = yield
                fresh = board.load(at.stamp(lane, self.heads[lane]))
            board, trays = yield
            if board.swap(at.slot(lane), seen, fresh):
                break
        return Ending("delivered", lane, best, tries)


# --- lists of calls -------------------------------------------------------------------------------------------------


def digest(words):
    h = 0xCBF29CE484222325
    for w in words:
        h = (h ^ w) * 0x100000001B3 & MASK
        h ^= h >> 29
    return h


class Tally:
    """How often each answer occurred."""

    def __init__(self):
        self.lists = self.calls = self.grants = 0
        self.seen = {}

    def note(self, what):
        self.seen[what] = self.seen.get(what, 0) + 1

    def ended(self, ending):
        self.note(ending.kind)
        if ending.kind == "posted" and ending.grants == 13:
            self.note("posted with grant 13")
        if ending.kind == "delivered" and ending.tries == 2:
            self.note("delivered with a second try")

    def missing(self, reports):
        wanted = [f"refused {k}" for k in range(1, 13) if k not in (8, 9)]
        wanted += ["posted", "full", "used up", "empty", "delivered", "posted with grant 13", "delivered with a second try"]
        wanted += ["report", "report refused 4", "report refused 13"] if reports else []
        return [what for what in wanted if what not in self.seen]

    def __str__(self):
        counts = ", ".join(f"{what} {self.seen[what]}" for what in sorted(self.seen, key=order_of))
        return f"{self.lists} lists, {self.calls} calls, {self.grants} grants: {counts}"


def order_of(what):
    words = what.split()
    return (words[0] == "refused", int(words[-1]) if words[0] == "refused" else 0, what)


class Walk:
    """One list of calls, performed."""

    def __init__(self, words, trays, tally):
        self.crew = Crew()
        self.board = Board((k + 1) * STEP & MASK for k in range(words))
        self.trays = [FIRST_TRAY + t for t in range(trays)]
        self.tally = tally
        tally.lists += 1

    def perform(self, call):
        """Makes the call, a list of words, and gives its line."""
        self.tally.calls += 1
        board, trays = self.board, self.trays
        if call[0] == "short":
            board, trays = Board([0] * int(call[1])), [0] * int(call[2])
            call = call[3:]
            assert call[0] in ("lay", "post", "grant", "gc")
        name, numbers = call[0], [int(word) for word in call[1:]]
        if name == "grant":
            lane, times = numbers
            return self.repeat(times, lambda: self.crew.grant_lane(board, trays, lane))
        if name == "gc":
            (times,) = numbers
            return self.repeat(times, lambda: self.crew.grant_collector(board, trays))
        return text(self.answer(name, numbers, board, trays))

    def answer(self, name, numbers, board, trays):
        crew = self.crew
        try:
            if name == "lay":
                crew.lay(board, trays, *numbers)
                assert board is self.board
                return ON
            if name == "post":
                crew.begin_post(trays, *numbers)
                assert trays is self.trays
                return ON
            if name == "collect":
                crew.begin_collect()
                return ON
            if name == "settle":
                return crew.settle().answer()
            if name == "drain":
                crew.drain()
                return ON
            if name == "fill":
                return (0, crew.fill(*numbers))
            if name == "report":
                posted, delivered = crew.report()
                self.tally.note("report" if posted else "report of nothing")
                return (0, posted, delivered)
            if name == "see":
                return (0, trays[numbers[0]])
        except Refused as refused:
            self.tally.note(f"report refused {refused.number}" if name == "report" else f"refused {refused.number}")
            return (refused.number,)
        raise ValueError(f"unknown call {name}")

    def repeat(self, times, grant):
        """Up to so many grants, stopping at an answer other than on."""
        assert times > 0
        for made in range(1, times + 1):
            try:
                ending = grant()
            except Refused as refused:
                self.tally.note(f"refused {refused.number}")
                return f"{made}: {refused.number}"
            self.tally.grants += 1
            if ending:
                self.tally.ended(ending)
                return f"{made}: {text(ending.answer())}"
        return f"{made}: {text(ON)}"

    def end(self):
        if self.crew.collect:
            while not self.crew.collect.ending:
                self.crew.grant_collector(self.board, self.trays)
            self.crew.settle()
        return f"same {digest(self.board.words)} {digest(self.trays)}"


def text(answer):
    return " ".join(str(number) for number in answer)


def answers(lines, tally):
    """The lines that a file of lists must give."""
    out, walk = [], None
    for line in lines:
        words = line.split()
        if words[0] == "line":
            assert walk is None
            walk = Walk(int(words[1]), int(words[2]), tally)
        elif words[0] == "end":
            out.append(walk.end())
            walk = None
        else:
            out.append(walk.perform(words))
    assert walk is None
    return out


# --- making lists ---------------------------------------------------------------------------------------------------


class Dice:
    """A small generator of pseudo-random numbers, the same on every machine."""

    def __init__(self, key):
        self.state = (key * STEP + 1) & MASK or 1

    def roll(self, low, high):
        """A number from low to high, both included."""
        x = self.state
        x ^= x << 13 & MASK
        x ^= x >> 7
        x ^= x << 17 & MASK
        self.state = x
        return low + (x * 0x2545F4914F6CDD1D & MASK) % (high - low + 1)

    def chance(self, percent):
        return self.roll(1, 100) <= percent

    def pick(self, items):
        return items[self.roll(0, len(items) - 1)]


# The worked cases: lone posts, a full lane, a scan that is overtaken, used-up stamps, second tries, and sizes that just do.
WORKED = """
line 11 7 | lay 2 2 0 | post 0 50 | grant 0 13 | post 0 51 | grant 0 13 | fill 0 | end
line 11 7 | lay 2 2 0 | collect | gc 1 | post 0 60 | grant 0 13 | post 1 61 | grant 1 13 | gc 13 | settle | see 2 | end
line 11 7 | lay 2 2 0 | collect | gc 1 | post 0 60 | grant 0 13 | gc 13 | settle | end
line 11 7 | lay 2 2 4611686018427387904 | post 0 70 | grant 0 13 | post 0 71 | grant 0 1 | grant 0 1 | grant 0 1 | end
line 7 5 | lay 1 3 0 | post 0 80 | grant 0 13 | collect | gc 4 | post 0 81 | grant 0 13 | gc 13 | settle | see 1 | end
line 7 5 | lay 1 3 0 | post 0 90 | grant 0 13 | post 0 91 | grant 0 6 | collect | gc 13 | settle | grant 0 6 | collect | gc 13 | settle | grant 0 13 | end
line 1073 1041 | short 10 7 lay 2 2 0 | short 11 6 lay 2 2 0 | lay 2 1 0 | lay 2 65 0 | lay 16 64 0 | fill 15 | fill 16 | lay 2 2 0 | end
line 6 4 | fill 0 | collect | settle | gc 1 | post 0 1 | grant 0 1 | lay 1 2 0 | post 0 1 | grant 0 13 | collect | gc 11 | settle | drain | collect | gc 1 | end
"""

# A crew never laid.
WORKED_NEVER_LAID = "line 6 4 | drain | fill 0 | collect | grant 0 2 | gc 2 | settle | end"

# The same with a report, and reports too early and in time.
WORKED_REPORTS = """
line 6 4 | drain | fill 0 | collect | grant 0 2 | gc 2 | settle | report | end
line 6 4 | lay 1 2 0 | post 0 1 | drain | report | grant 0 13 | report | collect | report | gc 11 | report | settle | report | report | end
"""


class Style:
    """What a generated list is like: its shape, how long its bursts of grants are, and how often something is refused."""

    def __init__(self, lanes, cells, burst, calls, odd, near_end=False):
        self.lanes, self.cells, self.burst, self.calls = lanes, cells, burst, calls
        self.odd = odd
        self.near_end = near_end


STYLES = [
    (Style(lanes=(1, 2), cells=(3, 4), burst=1, calls=130, odd=1), 30),
    (Style(lanes=(1, 4), cells=(2, 5), burst=1, calls=130, odd=5), 24),
    (Style(lanes=(1, 2), cells=(3, 3), burst=4, calls=110, odd=1), 40),
    (Style(lanes=(1, 16), cells=(2, 64), burst=6, calls=60, odd=4), 40),
    (Style(lanes=(2, 16), cells=(2, 9), burst=16, calls=90, odd=3), 76),
    (Style(lanes=(1, 5), cells=(2, 9), burst=8, calls=60, odd=4, near_end=True), 24),
    (Style(lanes=(1, 16), cells=(2, 64), burst=4, calls=40, odd=60), 30),
    (Style(lanes=(16, 16), cells=(60, 64), burst=41, calls=150, odd=2), 12),
]

BAD_LANES = [16, 17, 255, 256, 257, 2**32, E]
BAD_SHAPES = [(0, 2), (17, 2), (1, 1), (1, 0), (1, 65), (2, 66), (16, 65), (257, 2), (1, 258), (E, 2), (2, E), (0, 0), (2**32 + 1, 3)]
BAD_STARTS = [STAMP_END + 1, 2**63, E]


class Author:
    """Writes one list: it performs what it writes, so that it knows what comes of the next call."""

    def __init__(self, style, dice, tally, reports=True):
        self.style, self.dice, self.reports = style, dice, reports
        self.n = dice.roll(*style.lanes)
        self.cells = dice.roll(*style.cells)
        need_map = Map(self.n, self.cells)
        words = need_map.words + dice.pick([0, 0, 1, 5])
        trays = need_map.trays + dice.pick([0, 0, 1, 7])
        self.walk = Walk(words, trays, tally)
        self.lines = [f"line {words} {trays}"]
        self.out = []
        self.next_payload = dice.roll(1, 9) * 100

    def write(self, call):
        self.lines.append(call)
        self.out.append(self.walk.perform(call.split()))

    def payload(self):
        self.next_payload += 1
        return self.dice.pick([self.next_payload] * 9 + [E - self.next_payload])

    def start(self):
        dice = self.dice
        if self.style.near_end:
            return STAMP_END - dice.roll(0, 12)
        return dice.pick([0, 0, 0, dice.roll(1, 9), dice.roll(0, STAMP_END), STAMP_END - dice.roll(30, 90)])

    def lane(self):
        return self.dice.roll(0, self.n - 1)

    def burst(self):
        return self.dice.roll(1, self.style.burst)

    def list(self):
        dice, crew = self.dice, self.walk.crew
        if dice.chance(self.style.odd):
            for _ in range(dice.roll(1, 6)):
                self.odd_call()
        drain_at = self.lay_and_drain_at()
        for at in range(self.style.calls):
            if at == drain_at:
                self.write("drain")
            elif dice.chance(self.style.odd):
                self.odd_call()
            else:
                self.plain_call()
        if self.reports and crew.draining and dice.chance(60):
            self.wind_up()
        if dice.chance(50) and crew.map:
            for lane in range(min(self.n, 4)):
                self.write(f"fill {lane}")
        self.lines.append("end")
        self.out.append(self.walk.end())

    def plain_call(self):
        """A call that the line has work for: grants for what is under way, or something new."""
        dice, crew = self.dice, self.walk.crew
        busy = sorted(crew.posts)
        idle = [r for r in range(self.n) if r not in crew.posts]
        choices = []
        if busy:
            choices += ["grant"] * 5
        if idle and not crew.draining:
            choices += ["post"] * 3
        if crew.collect is None:
            choices += ["collect"] * 2
        elif crew.collect.ending:
            choices += ["settle"] * 3
        else:
            choices += ["gc"] * 5
        if self.reports and crew.draining:
            choices += ["report"]
        choices += ["fill"] if dice.chance(30) else []
        name = dice.pick(choices)
        if name == "grant":
            self.write(f"grant {dice.pick(busy)} {self.burst()}")
        elif name == "post":
            lane = dice.pick(idle)
            self.write(f"post {lane} {self.payload()}")
            if self.style.burst > 6:
                self.write(f"grant {lane} {self.burst()}")
        elif name == "gc":
            self.write(f"gc {self.burst()}")
        elif name == "fill":
            self.write(f"fill {self.lane()}")
        else:
            self.write(name)
            if name == "settle" and dice.chance(60):
                self.write(f"see {crew.map.collectors_hand}")

    def odd_call(self):
        """A call that is mostly refused, or a laying over what is there."""
        dice, crew = self.dice, self.walk.crew
        kinds = ["grant", "gc", "settle", "fill", "short grant", "short gc", "collect"]
        if not crew.draining:
            kinds += ["post", "short post", "lay", "lay", "short lay", "lay again"]
        kind = dice.pick(kinds)
        lane = dice.pick(BAD_LANES + [self.n] + [self.lane()] * 9)
        if kind == "grant":
            self.write(f"grant {lane} {self.burst()}")
        elif kind == "gc":
            self.write(f"gc {self.burst()}")
        elif kind in ("settle", "collect"):
            self.write(kind)
        elif kind == "fill":
            self.write(f"fill {lane}")
        elif kind == "post":
            self.write(f"post {lane} {self.payload()}")
        elif kind == "lay":
            n, cells, start = self.n, self.cells, self.start()
            wrong = dice.pick(["shape", "start", "both", "trays"])
            if wrong in ("shape", "both"):
                n, cells = dice.pick(BAD_SHAPES)
            if wrong in ("start", "both"):
                start = dice.pick(BAD_STARTS)
            if wrong == "trays":
                # a shape whose words would do and whose trays may not: fewer lanes, more cells
                n, cells = self.other_shape()
            self.write(f"lay {n} {cells} {start}")
            self.follow_shape()
        elif kind == "lay again":
            self.write(f"lay {self.n} {self.cells} {self.start()}")
        else:
            self.short_call(kind.split()[1], lane)

    def lay_and_drain_at(self):
        """Lays the line, and says at which call the crew drains; where reports are made, a line may be drained and never laid."""
        dice = self.dice
        if not self.reports:
            self.write(f"lay {self.n} {self.cells} {self.start()}")
            return self.style.calls * dice.roll(50, 140) // 100
        drain_at = self.style.calls * dice.roll(50, 140) // 100
        if self.walk.crew.map is None and dice.chance(self.style.odd // 4):
            return 0
        self.write(f"lay {self.n} {self.cells} {self.start()}")
        return drain_at

    def wind_up(self):
        """Ends what is under way on a draining crew, collects what is left, and reports."""
        crew = self.walk.crew
        for lane in sorted(crew.posts):
            self.write(f"grant {lane} 13")
        while crew.collect or crew.map and any(crew.fill(r) for r in range(crew.map.n)):
            if crew.collect is None:
                self.write("collect")
            elif crew.collect.ending:
                self.write("settle")
            else:
                self.write("gc 41")
        self.write("report")

    def other_shape(self):
        """A shape that the board has words for."""
        dice, words = self.dice, self.walk.board.length()
        n = dice.roll(1, min(16, max(1, (words - 1) // 5)))
        cells = (words - 1) // n - 3
        return (n, min(64, cells)) if cells >= 2 else (self.n, self.cells)

    def follow_shape(self):
        if self.walk.crew.map:
            self.n, self.cells = self.walk.crew.map.n, self.walk.crew.map.cells

    def short_call(self, name, lane):
        """A call with a board or trays that are too short; for a crew never laid any sizes do."""
        dice = self.dice
        at = Map(self.n, self.cells)
        words, trays = dice.pick([0, 1, at.words - 1, at.words]), dice.pick([0, 1, at.trays - 1])
        if name in ("grant", "gc", "lay") and dice.chance(50):
            words, trays = dice.pick([0, 1, at.words - 1]), dice.pick([at.trays, at.trays + 1])
        rest = {
            "lay": f"{self.n} {self.cells} {dice.pick([0, 0, 5, STAMP_END + 1])}",
            "post": f"{lane} {self.payload()}",
            "grant": f"{lane} {self.burst()}",
            "gc": f"{self.burst()}",
        }[name]
        self.write(f"short {words} {trays} {name} {rest}")


def generated(tally, reports):
    """The lists of calls and their answers."""
    lines, out = [], []
    cases = WORKED + (WORKED_REPORTS if reports else WORKED_NEVER_LAID)
    worked = [call.strip() for line in cases.split("\n") if line for call in line.split("|")]
    lines += worked
    out += answers(worked, tally)
    key = 0
    for style, count in STYLES:
        for _ in range(count):
            key += 1
            author = Author(style, Dice(key), tally, reports)
            author.list()
            lines += author.lines
            out += author.out
    return lines, out


# --- commands -------------------------------------------------------------------------------------------------------


def file_lines(path):
    with open(path, encoding="ascii") as file:
        return file.read().splitlines()


def write_lines(path, lines):
    with open(path, "w", encoding="ascii", newline="\n") as file:
        file.write("\n".join(lines) + "\n")


def differing(what, stored, expected):
    """A message about the first line at which two lists of lines differ, or nothing."""
    for at, (a, b) in enumerate(zip(stored, expected), 1):
        if a != b:
            return f"{what}, line {at}: stored is '{a}', the model has '{b}'"
    if len(stored) != len(expected):
        return f"{what}: {len(stored)} lines are stored, the model has {len(expected)}"
    return None


def generate(stdin, stdout, reports):
    tally = Tally()
    lines, out = generated(tally, reports)
    write_lines(stdin, lines)
    write_lines(stdout, out)
    print(tally)
    return 0


def verify(stdin, stdout, reports):
    stored = file_lines(stdin)
    tally = Tally()
    made, _ = generated(Tally(), reports)
    faults = [differing(stdin, stored, made), differing(stdout, file_lines(stdout), answers(stored, tally))]
    if tally.lists < 200 or tally.grants < 50_000:
        faults.append("fewer than 200 lists or 50,000 grants")
    if tally.missing(reports):
        faults.append("never answered: " + ", ".join(tally.missing(reports)))
    faults = [fault for fault in faults if fault]
    for fault in faults:
        print(fault, file=sys.stderr)
    print(tally)
    return 1 if faults else 0


# --- the model's own test -------------------------------------------------------------------------------------------


class Watched(Walk):
    """A list of calls that keeps account of every frame."""

    def __init__(self, words, trays, tally):
        super().__init__(words, trays, tally)
        self.forget()

    def forget(self):
        self.hands, self.frames, self.last = {}, {}, {}
        self.put_in = self.taken_out = 0

    def perform(self, call):
        accepted = super().perform(call)
        if call[0] == "lay" and accepted == "0":
            self.forget()
        if call[0] == "post" and accepted == "0":
            self.hands[int(call[1])] = int(call[2])
        if call[0] == "report":
            self.check_report(accepted)
        self.check_fills()
        return accepted

    def check_report(self, answer):
        """Refused as long as something is left to do, and otherwise the number of frames, put in and taken out."""
        crew = self.crew
        if crew.map and not (self.frames or crew.posts or crew.collect):
            assert self.put_in == self.taken_out and answer == f"0 {self.put_in} {self.taken_out}"
        else:
            assert answer == ("13" if crew.map else "4")

    def check_fills(self):
        at = self.crew.map
        if at:
            for r in range(at.n):
                assert self.board.load(at.head(r)) == self.crew.heads[r] < at.cells
                assert self.board.load(at.tail(r)) == self.crew.tails[r] < at.cells
                assert self.crew.fill(r) <= at.cells - 1

    def repeat(self, times, grant):
        """As before, and every frame is seen to be put in and taken out once, each lane's in their order."""

        def watched():
            crew = self.crew
            tails, fetched = list(crew.tails), list(crew.heads)
            ending = grant()
            for r, tail in enumerate(tails):
                if crew.tails[r] != tail:
                    stamp = self.board.load(crew.map.stamp(r, tail))
                    assert (r, stamp) not in self.frames, "a stamp given twice"
                    self.frames[r, stamp] = self.hands[r]
                    self.put_in += 1
            for r, head in enumerate(fetched):
                if crew.heads[r] != head:
                    stamp = self.board.load(crew.map.stamp(r, head))
                    assert self.frames.pop((r, stamp)) == self.trays[crew.map.collectors_hand], "another frame's payload"
                    assert self.last.get(r, -1) < stamp, "out of order"
                    self.last[r] = stamp
                    self.taken_out += 1
            if ending:
                self.check_ending(ending)
            return ending

        return super().repeat(times, watched)

    def check_ending(self, ending):
        n = self.crew.map.n
        bound = {"posted": 13, "full": 1, "used up": 2, "empty": n, "delivered": 2 * n + 9}[ending.kind]
        assert ending.grants <= bound
        if ending.kind in ("full", "used up", "empty"):
            assert ending.grants == bound
        if ending.kind == "delivered":
            assert self.last[ending.lane] == ending.stamp, "another frame than the one found"


def one(calls):
    """The answers to one list, without its digests."""
    lines = [call.strip() for call in calls.split("|")]
    return answers(lines, Tally())[:-1]


def worked_cases():
    full = f"line 11 7 | lay 2 2 {{start}} | "
    first = one(full.format(start=0) + "post 0 5 | grant 0 13 | post 0 6 | grant 0 13 | end")
    assert first[2] == "9: 0 0 9", "a lone post: posted, stamp 0, 9 grants"
    assert first[4] == "1: 8 1", "a second one: full with 1 grant"
    assert one(full.format(start=STAMP_END) + "post 0 5 | grant 0 13 | end")[2] == "2: 9 2", "no stamp left"
    both = one(full.format(start=0) + "collect | gc 1 | post 0 5 | grant 0 13 | post 1 6 | grant 1 13 | gc 13 | settle | see 2 | end")
    assert both[7:] == ["7: 0 0 0 8", "0 0 0 8", "0 5"], "the second scan finds the older frame: lane 0, 8 grants"
    missed = one(full.format(start=0) + "collect | gc 1 | post 0 5 | grant 0 13 | gc 13 | end")
    assert missed[-1] == "1: 0 2", "a first scan that saw only empty slots: 2 grants"
    ring = "line 7 5 | lay 1 3 0 | post 0 5 | grant 0 13 | "
    again = one(ring + "collect | gc 4 | post 0 6 | grant 0 13 | gc 13 | end")
    assert again[4] == "4: 0" and again[6] == "9: 0 1 9" and again[7] == "7: 0 0 0 11", "a second try of a collect: 11 grants"
    posts = one(ring + "post 0 6 | grant 0 6 | collect | gc 13 | settle | grant 0 6 | collect | gc 13 | settle | grant 0 13 | end")
    assert posts[6] == "7: 0 0 0 7" and posts[8] == "6: 0", "a collect in 7 grants, the post goes on"
    assert posts[10] == "6: 0 0 1 6" and posts[12] == "1: 0 1 13", "a collect in 6 grants, a post in 13"
    sizes = one("line 1073 1041 | short 10 7 lay 2 2 0 | short 11 6 lay 2 2 0 | lay 2 1 0 | lay 2 65 0 | lay 2 2 0 | end")
    assert sizes == ["3", "3", "1", "1", "0"], "sizes that just do"
    early = one("line 6 4 | lay 1 2 0 | post 0 5 | drain | report | grant 0 13 | report | collect | report | gc 11 | report | settle | report | end")
    assert early[3::2] == ["13", "13", "13", "13", "0 1 1"], "a post under way, a frame in the lane, a collect under way, one not settled; then 1 and 1"
    assert one("line 6 4 | drain | report | end")[1] == "4", "never laid"
    assert one("line 6 4 | lay 1 2 0 | drain | report | end")[2] == "0 0 0", "nothing was posted"


def drained_dry():
    """After every post has ended, collects deliver each posted frame once, oldest first, and then end empty."""
    for key in range(1, 60):
        dice, tally = Dice(9000 + key), Tally()
        author = Author(Style(lanes=(1, 6), cells=(2, 7), burst=9, calls=80, odd=0), dice, tally)
        author.list()
        crew, walk = author.walk.crew, author.walk
        for lane in sorted(crew.posts):
            walk.perform(["grant", str(lane), "13"])
        assert not crew.posts
        stamps = []
        while True:
            crew.begin_collect()
            walk.perform(["gc", "99"])
            ending = crew.settle()
            if ending.kind == "empty":
                break
            stamps.append(ending.stamp)
        assert stamps == sorted(stamps) and crew.posted == crew.delivered
        assert all(crew.fill(r) == 0 for r in range(crew.map.n))


def selftest():
    global Walk
    worked_cases()
    drained_dry()
    plain = Walk
    Walk = Watched
    tally = Tally()
    generated(tally, True)
    Walk = plain
    assert not tally.missing(True), tally.missing(True)
    print(f"the model holds its rules over {tally.lists} lists and {tally.grants} grants")
    return 0


def main(args):
    reports = args[1:2] == ["--reports"]
    paths = args[2:] if reports else args[1:]
    if len(paths) == 2 and args[0] in ("generate", "verify"):
        return {"generate": generate, "verify": verify}[args[0]](*paths, reports)
    if args == ["selftest"]:
        return selftest()
    print("line_model.py generate [--reports] STDIN STDOUT | verify [--reports] STDIN STDOUT | selftest", file=sys.stderr)
    return 1


if __name__ == "__main__":
    sys.exit(main(sys.argv[1:]))
