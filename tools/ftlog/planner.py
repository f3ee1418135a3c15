"""The schedule that parts of holds come to, found by asking for the steps of a script under longer and longer schedules."""
from ftlog.fault import Fault
from ftlog.holds import ALL
from ftlog.limits import LIMITS
from ftlog.script_lines import Item

BOUNDS = (1_000, 10_000, 100_000)  # turns that are tried, one bound after the other
WAITING = 100  # loads of one word after each other that nobody makes but who waits for it


def text_of(items):
    """The line of the schedule that these items are."""
    return "sched " + " ".join(item.who if item.count == 1 else f"{item.who}*{item.count}" for item in items)


class Planner:
    """Grows a schedule part by part. `steps` gives the steps of a script's text, and `head` is the script without its schedule."""

    def __init__(self, steps, head, cpus):
        self.steps, self.head, self.actors = steps, head, ["k", *cpus]
        self.items, self.turns = [], 0  # the schedule so far, and how many turns it has
        self.made = 0  # how many steps are made under it; None if that isn't known yet

    def run(self, items):
        """The steps under this schedule."""
        return self.steps(self.head + text_of(items).encode() + b"\n") if items else []

    def room(self, who, count):
        """As many counts of this actor, at most so many, as the schedule has room for."""
        left = (LIMITS["STEPS"] - self.turns) // (len(self.actors) if who == ALL else 1)
        if left < 1:
            raise Fault(f"the schedule has no room left: {LIMITS['STEPS']:,} steps are the most")
        return min(left, count)

    def keep(self, items, made):
        """The schedule has these items more, under which so many steps more are made; None if that isn't known."""
        self.items += [item for item in items if item.count]
        self.turns += sum(item.count * (len(self.actors) if item.who == ALL else 1) for item in items)
        self.made = None if made is None or self.made is None else self.made + made

    def further(self, who, count):
        """The steps that are made next if an actor, or all of them, have so many turns."""
        if self.made is None:
            self.made = len(self.run(self.items))
        found = self.run(self.items + [Item(who, count)])[self.made :]
        wrong = next((step for step in found if who not in (ALL, step.actor)), None)
        if wrong:
            raise Fault(f"the steps aren't those of the schedule: {wrong.actor} makes one in a turn of {who}")
        return found

    def add(self, part):
        """One more part. Gives the items that it comes to."""
        before = len(self.items)
        if part.how == "for":
            if part.count:
                count = self.room(part.actor, part.count)
                if count < part.count:
                    raise Fault(f"`for {part.count}` is more than the schedule has room for: {LIMITS['STEPS']:,} steps are the most")
                self.keep([Item(part.actor, count)], None)
        else:
            self.search(part)
        return self.items[before:]

    def search(self, part):
        """One more part that ends at a step or at the end."""
        for bound in BOUNDS:
            count = self.room(part.actor, bound)
            found = self.further(part.actor, count)
            is_over = self.is_over(part.actor, count, found)
            if part.how == "end" and is_over:
                return self.keep([Item(part.actor, rounds(found))], len(found))
            at = next((at for at, step in enumerate(found) if part.pattern and part.pattern.fits(step)), None)
            if at is not None:
                return self.keep(self.items_to(part, found, at), at + (part.how == "past"))
            if is_over or count < bound or is_waiting(part.actor, found):
                break
        raise Fault(self.told(part, found, is_over, count))

    @staticmethod
    def is_over(who, count, found):
        """Whether these steps of so many turns show that the actor, or each of them, has come to its end."""
        return rounds(found) < count

    def items_to(self, part, found, at):
        """The turns up to a step, or with it."""
        is_past = part.how == "past"
        if part.actor != ALL:
            return [Item(part.actor, at + is_past)]
        actor = found[at].actor
        full = sum(step.actor == actor for step in found[:at])  # the rounds before that in which it is made
        order = self.actors[: self.actors.index(actor) + is_past]
        return [Item(ALL, full), *(Item(other, 1) for other in order)]

    @staticmethod
    def told(part, found, is_over, count):
        """Why a part can't be had."""
        who, to_end = ("all in turn", "come to their ends") if part.actor == ALL else (f"{part.actor} alone", "comes to its end")
        last = f"; the last step is `{found[-1].operation} {found[-1].word.replace('.', ' ')}`" if found else ""
        if is_over:
            return f"{who} {to_end} without a step {part.pattern}{last}"
        missed = to_end.replace("comes", "come") if part.how == "end" else f"come to {part.pattern}"
        why = "; it waits there, and goes on only after a step of another actor" if is_waiting(part.actor, found) else ""
        return f"{who} {never(part.actor)} {missed} in {count:,} turns{last}{why}"


def never(actor):
    """The verb of what an actor, or all of them, don't do."""
    return "don't" if actor == ALL else "doesn't"


def is_waiting(actor, found):
    """Whether an actor that goes on alone has come to a wait: it loads the same word again and again."""
    last = found[-WAITING:]
    return actor != ALL and len(last) == WAITING and len({step.word for step in last}) == 1 and last[0].operation == "load"


def rounds(found):
    """The most steps that one actor makes of these: each makes one a turn until it is at its end."""
    counts = {}
    for step in found:
        counts[step.actor] = counts.get(step.actor, 0) + 1
    return max(counts.values(), default=0)
