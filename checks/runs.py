#!/usr/bin/env python3
"""Writes the tables of long runs of crates/task_tests: acts that look random, and what plain models answer.

    checks/runs.py

A plain model keeps what happened, and looks through it for each answer. The files are crates/task_tests/data/*_runs.txt, and
are the same each time.
"""

import sys
from pathlib import Path

# No folder of compiled files is left beside the scripts.
sys.dont_write_bytecode = True

DATA = Path(__file__).resolve().parent.parent / "crates" / "task_tests" / "data"


class Chance:
    """Numbers that look random: a linear congruential generator."""

    def __init__(self, seed, dropped_bits):
        self.state, self.dropped_bits = seed, dropped_bits

    def below(self, bound):
        self.state = (self.state * 1_664_525 + 1_013_904_223) % 2**32
        return (self.state >> self.dropped_bits) % bound


def listed(numbers):
    return ",".join(map(str, numbers)) or "-"


def line(words):
    """A line of acts and answers, from pairs of both."""
    return " ".join(act for act, _ in words) + " = " + " ".join(str(answer) for _, answer in words)


class Sets:
    """Waitable sets: one list of all joinings that still stand, and one of all waits."""

    def __init__(self):
        self.joined, self.waits = [], []

    def leave(self, waitable):
        self.joined = [it for it in self.joined if it[0] != waitable]

    def join(self, waitable, to):
        self.leave(waitable)
        self.joined.append((waitable, to))

    def members(self, of):
        return [waitable for waitable, to in self.joined if to == of]

    def wait_off(self, on):
        if on not in self.waits:
            return "no"
        self.waits.remove(on)
        return "ok"

    def drop_answer(self, of):
        return "members" if self.members(of) else "waiters" if of in self.waits else "ok"


def set_act(model, waitable, to, which):
    if which <= 3:
        model.join(waitable, to)
        return f"j:{waitable}.{to}", "ok"
    if which == 4:
        model.leave(waitable)
        return f"l:{waitable}", "ok"
    if which == 5:
        assert model.waits.count(to) < 99
        model.waits.append(to)
        return f"w:{to}", "ok"
    return (f"o:{to}", model.wait_off(to)) if which == 6 else (f"d:{to}", model.drop_answer(to))


def set_runs():
    """A thousand acts on five sets and twelve waitables; after each, the members of each set, and the ready ones where some
    waitables are told, in any order, some of them twice."""
    chance, model = Chance(7, 12), Sets()
    yield "five sets, twelve waitables"
    yield line([("m", number) for number in range(5)])
    for _ in range(1000):
        waitable, to = chance.below(12), chance.below(5)
        words = [set_act(model, waitable, to, chance.below(8))]
        told = [chance.below(12) for _ in range(chance.below(7))]
        for of in range(5):
            ready = [it for it in model.members(of) if it in told]
            where = f"{of}.{','.join(map(str, told))}"
            words += [(f"s:{of}", listed(model.members(of))), (f"r:{where}", listed(ready))]
            words += [(f"a:{where}", "yes" if ready else "no")]
        yield line(words)


class Task:
    """A task: the list of all that happened."""

    def __init__(self, kind):
        self.kind, self.past = kind, []

    def wait(self):
        """The word by which it waits, if it waits."""
        found = None
        for it in self.past:
            found = it if it[0] == "b" and it != "bor" else None if it in ("enter", "go", "removed") else found
        return found

    def is_over(self):
        return "removed" in self.past or "exit" in self.past

    def acts(self):
        return "enter" in self.past and not self.wait() and not self.is_over()

    def is_fresh(self):
        return "enter" not in self.past and not self.wait() and not self.is_over()

    def is_resolved(self):
        return any(it in self.past for it in ("ret", "can", "removed"))

    def borrows(self):
        return self.past.count("bor") - self.past.count("unb")

    def may_happen(self, event):
        at_entry = (self.wait() or "").startswith("be")
        if event == "enter":
            return at_entry if self.wait() else self.is_fresh()
        if event.startswith("be"):
            return self.is_fresh()
        if event == "go":
            return bool(self.wait()) and not at_entry
        if event == "bor":
            return self.acts() and not self.is_resolved()
        if event == "unb":
            return self.borrows() != 0
        if event == "told":
            return "asked" in self.past and "told" not in self.past
        return self.acts() and (event != "exit" or self.is_resolved())

    def answer(self, event):
        if not self.may_happen(event):
            return "no"
        if event in ("ask", "can") and self.kind == "sync":
            return "SyncTask"
        if event == "can" and "told" not in self.past:
            return "NotAsked"
        if event in ("ret", "can") and self.is_resolved():
            return "Resolved"
        if event in ("ret", "can") and self.borrows() != 0:
            return "BorrowLives"
        self.past.append(event)
        return "ok"

    def request(self, entry_free):
        """What is answered where it is asked that the task be cancelled."""
        if self.is_resolved() or "asked" in self.past:
            return "no"
        wait = self.wait() or ""
        if wait.startswith("be"):
            self.past.append("removed")
            return "Removed"
        self.past.append("asked")
        loops = wait.startswith("bl") and entry_free
        yields = wait in ("by!", "bs!") and self.kind != "sync"
        return "ResumeNow" if loops or yields else "Pending"

    def state(self):
        """The code of its subtask's state."""
        for word, code in (("removed", 3), ("can", 4), ("ret", 2), ("enter", 1)):
            if word in self.past:
                return code
        return 0


# The words of events, by numbers that look random; those of `b` get a `!` where the flag is set.
EVENTS = ["enter"] * 3 + ["be", "bl", "by", "bs", "bc", "bp", "bx"] + ["go"] * 4 + ["ask", "ret", "can", "can", "bor"]
EVENTS += ["unb", "unb", "told", "told", "exit"]


def task_act(model, chance):
    if chance.below(12) == 0:
        entry_free = chance.below(2)
        return f"x{entry_free}", model.request(entry_free == 1)
    flag = chance.below(2)
    event = EVENTS[chance.below(24)]
    event += "!" if flag and event[0] == "b" and event != "bor" else ""
    return event, model.answer(event)


def task_runs():
    """Forty acts of thirty tasks of each kind; after each, the state of the subtask and the number of borrows."""
    chance = Chance(11, 12)
    for _ in range(30):
        for kind in ("sync", "callback", "stackful"):
            model, words = Task(kind), []
            for _ in range(40):
                words += [task_act(model, chance), ("s", model.state()), ("borrows", model.borrows())]
            yield f"{kind}: {line(words)}"


class Subtask:
    """A subtask: the codes of its states, which of these were told, and what was lent."""

    def __init__(self):
        self.codes, self.told, self.lent = [0], [0], []

    def rise(self, code):
        if code not in {0: (1, 3), 1: (2, 4)}.get(self.codes[-1], ()):
            return "no"
        self.codes.append(code)
        return "ok"

    def tell(self):
        if self.codes[-1] == self.told[-1]:
            return "no"
        self.told.append(self.codes[-1])
        return self.codes[-1]

    def lend(self, handle):
        if self.codes[-1] >= 2:
            return "no"
        self.lent.append(handle)
        return "ok"

    def lends(self):
        """What is lent: all or nothing."""
        return [] if self.told[-1] >= 2 else self.lent


def subtask_act(model, chance):
    number, which = chance.below(5), chance.below(3)
    if which == 0:
        return f"r:{number}", model.rise(number)
    return ("t", model.tell()) if which == 1 else (f"l:{number}", model.lend(number))


def subtask_runs():
    """Sixteen acts of seventy subtasks; after each, the lent handles."""
    chance = Chance(5, 12)
    for _ in range(70):
        model, words = Subtask(), []
        for _ in range(16):
            words += [subtask_act(model, chance), ("h", listed(model.lends()))]
        yield f"2: {line(words)}"


class Table:
    """A table of handles: the list of all that happened, looked through from its end."""

    def __init__(self):
        self.events = []

    def get(self, index):
        for at, entry in reversed(self.events):
            if at == index:
                return entry
        return None

    def greatest(self):
        return max([at for at, entry in self.events if entry is not None], default=0)

    def next(self):
        """The index of the next add: the last removed that is not live, else one more than the greatest."""
        for at, entry in reversed(self.events):
            if entry is None and self.get(at) is None:
                return at
        return self.greatest() + 1

    def live(self):
        return sum(self.get(index) is not None for index in range(1, self.greatest() + 1))

    def add(self, entry):
        index = self.next()
        self.events.append((index, entry))
        return index

    def remove(self, index):
        entry = self.get(index)
        if entry is not None:
            self.events.append((index, None))
        return shown(entry)


def shown(entry):
    return "none" if entry is None else entry


def table_runs():
    """A thousand adds and removes; after each, the next index, the length, and an entry."""
    chance, model = Chance(11, 16), Table()
    yield "a table"
    for _ in range(1000):
        index, entry = chance.below(40), chance.below(1000)
        adds = chance.below(8) <= 3
        words = [(f"put:{entry}", model.add(entry)) if adds else (f"remove:{index}", model.remove(index))]
        words += [("next", model.next()), ("len", model.live()), (f"get:{index}", shown(model.get(index)))]
        yield line(words)
    assert model.greatest() > 20


class Gate:
    """A gate: the list of the tasks, each with its kind and its place, and the backpressure."""

    def __init__(self):
        self.kinds = [("sync", "callback", "stackful")[task % 3] for task in range(12)]
        self.places, self.pressure = ["outside"] * 12, 0

    def is_held(self):
        return any(kind != "stackful" and place == "inside" for kind, place in zip(self.kinds, self.places))

    def may_enter(self, kind, newcomer):
        if self.pressure > 0 or newcomer and "waiting" in self.places:
            return False
        return kind == "stackful" or not self.is_held()

    def press(self, which):
        if which == 0:
            self.pressure += 1
            return "inc", "ok"
        if which <= 3:
            answer = "ok" if self.pressure > 0 else "zero"
            self.pressure = max(self.pressure - 1, 0)
            return "dec", answer
        self.pressure = int(which == 4)
        return ("set:4" if which == 4 else "set:0"), "ok"

    def go(self, task, place, *acts):
        self.places[task] = place
        return [(act, "ok") for act in acts]

    def step(self, task, coin):
        """What a task does next, by where it is."""
        kind, place = self.kinds[task], self.places[task]
        if place == "outside":
            if self.may_enter(kind, True):
                return self.go(task, "inside", f"let:{task}.{kind}")
            return self.go(task, "waiting", "wait")
        if place == "waiting":
            if coin:
                return self.go(task, "outside", "unwait")
            if self.may_enter(kind, False):
                return self.go(task, "inside", "unwait", f"let:{task}.{kind}")
            return []
        if place == "inside":
            if coin and kind == "callback":
                return self.go(task, "loop", f"pause:{task}")
            return self.go(task, "outside", f"leave:{task}")
        return [] if self.is_held() else self.go(task, "inside", f"take_back:{task}")


def gate_runs():
    """A thousand steps of twelve tasks, or of the backpressure; after each, who may enter."""
    chance, model = Chance(12, 16), Gate()
    yield "twelve tasks"
    for _ in range(1000):
        if chance.below(8) == 0:
            words = [model.press(chance.below(6))]
        else:
            task = chance.below(12)
            words = model.step(task, chance.below(2) == 0)
        for kind in ("sync", "callback", "stackful"):
            for word, newcomer in (("new", True), ("old", False)):
                words += [(f"{word}:{kind}", "y" if model.may_enter(kind, newcomer) else "n")]
        words += [("free", "n" if model.is_held() else "y"), ("waiting", model.places.count("waiting"))]
        yield line(words)


def pick_runs():
    """Five hundred picks, of which one is used by each of a thousand choices among more than one, as long as there are some."""
    chance, words = Chance(13, 16), []
    given = [chance.below(1000) for _ in range(500)]
    used = 0
    for _ in range(1000):
        alternatives = chance.below(5) + 1
        pick = given[used] if used < 500 and alternatives > 1 else 0
        used += alternatives > 1
        words += [(str(alternatives), pick % alternatives)]
    assert used > 500
    yield f"{' '.join(map(str, given))} : {line(words)}"


def main():
    """Writes the tables, or with the argument `compare` tells those that are others than would be written."""
    others = []
    for runs in (set_runs, task_runs, subtask_runs, table_runs, gate_runs, pick_runs):
        file, text = DATA / f"{runs.__name__}.txt", "".join(f"{it}\n" for it in runs())
        if sys.argv[1:] != ["compare"]:
            file.write_text(text)
        elif file.read_text() != text:
            others.append(file.name)
    sys.exit(f"others than the models say: {', '.join(others)}" if others else 0)


main()
