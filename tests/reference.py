#!/usr/bin/env python3
"""Plays a script from standard input and prints what the program should print.

Written from docs/RULES.md and docs/FORMATS.md alone, and from the lines list, mend, open S tree P and open S even P, which
FORMATS.md does not have yet, in another language than the program, to be compared with it line by line (tests/compare.py). It is slow and plain on purpose.
"""
import re
import sys

LOW, HIGH = 0, 1
FREE, IN_HAND, CHAINED, RETIRED = "free", "in hand", "chained", "retired"


class Refused(Exception):
    def __init__(self, number):
        super().__init__(number)
        self.number = number


class Line:
    """The straight guide: it leads nowhere."""

    most = 64

    def __init__(self, places):
        self.sequence = [LOW, HIGH]
        self.places = places

    def start(self):
        return LOW

    def beside(self, place, higher):
        return "end" if place in self.sequence else "absent"

    def attach(self, lower, place, upper):
        at = self.sequence.index(lower)
        assert self.sequence[at + 1] == upper and place not in self.sequence
        self.sequence.insert(at + 1, place)

    def detach(self, place):
        self.sequence.remove(place)

    def mend(self):
        return "nothing"


class Node:
    def __init__(self, parent):
        self.parent = parent
        self.child = [None, None]
        self.height = [0, 0]


class Tree(Line):
    """The plain tree: High is the root, Low is outside."""

    most = 1024

    def __init__(self, places):
        super().__init__(places)
        self.nodes = {HIGH: Node(None)}

    def start(self):
        return HIGH

    def beside(self, place, higher):
        if place not in self.sequence:
            return "absent"
        if place == LOW:
            return "end"
        child = self.nodes[place].child[higher]
        return "end" if child is None else child

    def attach(self, lower, place, upper):
        super().attach(lower, place, upper)
        if lower != LOW and self.nodes[lower].child[1] is None:
            parent, side = lower, 1
        else:
            parent, side = upper, 0
        assert self.nodes[parent].child[side] is None
        self.nodes[parent].child[side] = place
        self.nodes[parent].height[side] = 1
        self.nodes[place] = Node(parent)

    def replace(self, place, by):
        """Puts `by` (or nothing) where `place` hangs."""
        parent = self.nodes[place].parent
        side = self.nodes[parent].child.index(place)
        self.nodes[parent].child[side] = by
        if by is not None:
            self.nodes[by].parent = parent

    def detach(self, place):
        super().detach(place)
        node = self.nodes[place]
        left, right = node.child
        if left is None or right is None:
            self.replace(place, right if left is None else left)
        else:
            successor = right
            while self.nodes[successor].child[0] is not None:
                successor = self.nodes[successor].child[0]
            moved = self.nodes[successor]
            self.replace(successor, moved.child[1])
            moved.child = list(node.child)
            moved.height = list(node.height)
            for child in moved.child:
                if child is not None:
                    self.nodes[child].parent = successor
            self.replace(place, successor)
        del self.nodes[place]


class Even(Tree):
    """The even tree: two heights for each place, and mend."""

    def right_height(self, place, side):
        child = self.nodes[place].child[side]
        return 0 if child is None else 1 + max(self.nodes[child].height)

    def turn(self, place, side):
        """The child on the other side than `side` takes the place's spot, and the place hangs on its `side`."""
        other = 1 - side
        node = self.nodes[place]
        child = node.child[other]
        up = self.nodes[child]
        self.replace(place, child)
        inner = up.child[side]
        node.child[other] = inner
        if inner is not None:
            self.nodes[inner].parent = place
        up.child[side] = place
        node.parent = child
        node.height[other] = up.height[side]
        up.height[side] = 1 + max(node.height)

    def mend(self):
        for place in sorted(self.nodes):
            for side in (0, 1):
                right = self.right_height(place, side)
                if self.nodes[place].height[side] != right:
                    self.nodes[place].height[side] = right
                    return "mended"
        leaning = [p for p in sorted(self.nodes) if p != HIGH and abs(self.nodes[p].height[0] - self.nodes[p].height[1]) >= 2]
        if leaning:
            place = max(leaning, key=lambda p: max(self.nodes[p].height))
            left, right = self.nodes[place].height
            heavy = 0 if left > right else 1
            child = self.nodes[place].child[heavy]
            heights = self.nodes[child].height
            if heights[1 - heavy] > heights[heavy]:
                self.turn(child, heavy)
            else:
                self.turn(place, 1 - heavy)
            return "mended"
        return "nothing"


GUIDES = {"line": Line, "tree": Tree, "even": Even}


class Place:
    def __init__(self):
        self.key = 0
        self.next = self.prev = LOW
        self.marked = False
        self.lock = None
        self.status = FREE
        self.waits = set()


class Task:
    def __init__(self, work, key):
        self.work = work
        self.key = key
        self.phase = "first" if work == "first" else "enter"
        self.at = self.other = LOW
        self.downs = 0
        self.steps = 0


class Book:
    def __init__(self, stations, guide, places):
        if not (2 <= places <= 1024 and 1 <= stations <= 16):
            raise Refused(1)
        if places > GUIDES[guide].most:
            raise Refused(2)
        self.guide = GUIDES[guide](places)
        self.places = [Place() for _ in range(places)]
        self.tasks = [None] * stations
        for end, other in ((LOW, HIGH), (HIGH, LOW)):
            place = self.places[end]
            place.next = place.prev = other
            place.status = CHAINED

    def station(self, i):
        if i >= len(self.tasks):
            raise Refused(3)
        return self.tasks[i]

    def begin(self, i, work, key):
        if self.station(i) is not None:
            raise Refused(4)
        self.tasks[i] = Task(work, key)

    def leave(self, i):
        if self.station(i) is None:
            raise Refused(5)
        if any(place.lock == i for place in self.places):
            raise Refused(6)
        self.over(i)

    def over(self, i):
        self.tasks[i] = None
        for place in self.places:
            if place.status == RETIRED:
                place.waits.discard(i)
                if not place.waits:
                    place.status = FREE

    def keys(self):
        found, at = [], self.places[LOW].next
        while at != HIGH:
            if not self.places[at].marked:
                found.append(self.places[at].key)
            at = self.places[at].next
        return found

    def stands(self, p, key):
        """Below (-1), the same (0) or above (1)."""
        if p == LOW:
            return -1
        if p == HIGH:
            return 1
        own = self.places[p].key
        return (own > key) - (own < key)

    def step(self, i):
        """One step of a work under way: None if it moved, 'waits', or the answer, with a key or none."""
        task = self.tasks[i]
        task.steps += 1
        return getattr(self, "step_" + task.phase)(i, task)

    def step_enter(self, i, t):
        t.at = self.guide.start()
        t.downs = 0
        t.phase = "down"

    def step_down(self, i, t):
        stands = self.stands(t.at, t.key)
        if stands == 0:
            t.phase = "check"
            return
        beside = self.guide.beside(t.at, 1 if stands < 0 else 0)
        if beside == "end":
            t.phase = "check"
        elif beside == "absent":
            t.at = LOW
            t.phase = "check"
        else:
            t.at = beside
            t.downs += 1
            if t.downs >= 64:
                t.phase = "check"

    def step_check(self, i, t):
        if self.places[t.at].marked:
            t.at = LOW
        t.phase = "back"

    def step_back(self, i, t):
        place, stands = self.places[t.at], self.stands(t.at, t.key)
        if t.work == "look":
            if stands == 0 and not place.marked:
                return ("yes", None)
            if stands >= 0:
                t.at = place.prev
            else:
                t.phase = "on"
        elif t.work == "after":
            if stands > 0:
                t.at = place.prev
            else:
                t.phase = "on"
        elif stands >= 0:
            t.at = place.prev
        else:
            t.phase = "seek"

    def step_on(self, i, t):
        place, stands = self.places[t.at], self.stands(t.at, t.key)
        if t.work == "look":
            if stands < 0:
                t.at = place.next
            elif stands > 0 or place.marked:
                return ("no", None)
            else:
                return ("yes", None)
        elif stands <= 0:
            t.at = place.next
        elif t.at == HIGH:
            return ("none", None)
        elif place.marked:
            t.phase = "enter"
        else:
            return ("key", place.key)

    def step_seek(self, i, t):
        after = self.places[t.at].next
        if self.stands(after, t.key) < 0:
            t.at = after
        else:
            t.phase = "lock"

    def step_lock(self, i, t):
        below = self.places[t.at]
        if below.lock not in (None, i):
            return ("waits", None)
        below.lock = i
        t.phase = "valid"

    def step_valid(self, i, t):
        below = self.places[t.at]
        stands = self.stands(below.next, t.key)
        if below.marked or stands < 0:
            below.lock = None
            t.phase = "enter"
        elif (t.work == "put") == (stands == 0):
            below.lock = None
            return ("no", None)
        else:
            t.phase = "take" if t.work == "put" else "victim"

    def step_take(self, i, t):
        below = self.places[t.at]
        for number, place in enumerate(self.places):
            if number >= 2 and place.status == FREE:
                place.key, place.next, place.prev = t.key, below.next, t.at
                place.marked, place.lock, place.status = False, i, IN_HAND
                t.other = number
                t.phase = "link"
                return None
        below.lock = None
        return ("no-room", None)

    def step_link(self, i, t):
        self.places[t.at].next = t.other
        self.places[t.other].status = CHAINED
        t.phase = "link_back"

    def step_link_back(self, i, t):
        self.places[self.places[t.other].next].prev = t.other
        t.phase = "attach"

    def step_attach(self, i, t):
        self.guide.attach(t.at, t.other, self.places[t.other].next)
        t.phase = "release_new"

    def step_release_new(self, i, t):
        self.places[t.other].lock = None
        t.phase = "put_end"

    def step_put_end(self, i, t):
        self.places[t.at].lock = None
        return ("yes", None)

    def step_victim(self, i, t):
        victim = self.places[t.at].next
        if self.places[victim].lock not in (None, i):
            return ("waits", None)
        self.places[victim].lock = i
        t.other = victim
        t.phase = "mark"

    def step_mark(self, i, t):
        self.places[t.other].marked = True
        t.phase = "unlink_back"

    def step_unlink_back(self, i, t):
        self.places[self.places[t.other].next].prev = t.at
        t.phase = "unlink"

    def step_unlink(self, i, t):
        self.places[t.at].next = self.places[t.other].next
        self.places[t.other].status = IN_HAND
        t.phase = "detach"

    def step_detach(self, i, t):
        self.guide.detach(t.other)
        t.phase = "release_victim"

    def step_release_victim(self, i, t):
        self.places[t.other].lock = None
        t.phase = "strike_end"

    def step_strike_end(self, i, t):
        self.places[t.at].lock = None
        victim = self.places[t.other]
        victim.waits = {j for j, task in enumerate(self.tasks) if task is not None and j != i}
        victim.status = RETIRED if victim.waits else FREE
        return ("yes", None)

    def step_first(self, i, t):
        t.at = self.places[LOW].next
        if t.at == HIGH:
            return ("none", None)
        t.phase = "first_next"

    def step_first_next(self, i, t):
        place = self.places[t.at]
        if not place.marked:
            return ("key", place.key)
        t.phase = "first"

    def run(self, i):
        """Up to 5,000 steps: the answer, a key or none, and the steps of a work that ended."""
        if self.station(i) is None:
            raise Refused(5)
        for _ in range(5000):
            task = self.tasks[i]
            done = self.step(i)
            if done is not None:
                answer, key = done
                if answer == "waits":
                    return (answer, None, None)
                self.over(i)
                return (answer, key, task.steps)
        return ("moved", None, None)


def value(word):
    if re.fullmatch(r"[0-9]+", word) is None or int(word) > 4294967295:
        raise Refused(11)
    return int(word)


def dash(*words):
    if any(word != "-" for word in words):
        raise Refused(11)


def play(book, text):
    """The book after the line, and what it says."""
    words = text.split(" ")
    if len(words) != 4 or any(re.fullmatch(r"[a-z]+|[0-9]+|-", word) is None for word in words):
        raise Refused(11)
    call, station, work, key = words
    if call == "open":
        stations = value(station)
        if work not in GUIDES:
            raise Refused(11)
        return Book(stations, work, value(key)), [("opened", None, None)]
    if call == "begin":
        number = value(station)
        if work not in ("put", "strike", "look", "first", "after"):
            raise Refused(11)
        if work == "first":
            dash(key)
        k = 0 if work == "first" else value(key)
        open_book(book).begin(number, work, k)
        return book, [("begun", None, None)]
    if call in ("run", "leave"):
        dash(work, key)
        number = value(station)
        if call == "run":
            return book, [open_book(book).run(number)]
        open_book(book).leave(number)
        return book, [("left", None, None)]
    if call in ("mend", "list"):
        dash(station, work, key)
        if call == "mend":
            return book, [(open_book(book).guide.mend(), None, None)]
        return book, [("key", k, None) for k in open_book(book).keys()] + [("end", None, None)]
    raise Refused(11)


def open_book(book):
    if book is None:
        raise Refused(11)
    return book


def column(number):
    return "-" if number is None else str(number)


def output(data):
    """What the program prints for these bytes."""
    lines = ["line answer key steps"]
    names = b"call station work key\n"
    if len(data) > 32768 or not data.startswith(names):
        return lines + ["0 refused-11 - -"]
    pieces = data[len(names):].decode("latin-1").split("\n")
    last = pieces.pop()
    book = None
    for number, text in enumerate(pieces, 1):
        try:
            book, says = play(book, text)
        except Refused as refusal:
            says = [(f"refused-{refusal.number}", None, None)]
        lines += [f"{number} {answer} {column(key)} {column(steps)}" for answer, key, steps in says]
    if last:
        lines.append(f"{len(pieces) + 1} refused-11 - -")
    return lines


if __name__ == "__main__":
    print("\n".join(output(sys.stdin.buffer.read())))
