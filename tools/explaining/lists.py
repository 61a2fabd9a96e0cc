"""Runs the journal of a list again: what each entry met, freed and left."""

from collections import OrderedDict

from explaining.report import Item, Place


class Items:
    """The items of a list from the head, found by birth group and key; the first one is meant if two have one name."""

    def __init__(self, items=()):
        self.items, self.names, self.next = OrderedDict(), {}, 0
        for item in items:
            self.append(item)

    def __len__(self):
        return len(self.items)

    def all(self):
        return list(self.items.values())

    def append(self, item):
        self.items[self.next] = item
        self.names.setdefault((item.birth, item.key), []).append(self.next)
        self.next += 1

    def find(self, name):
        """The number of the first item of this name, or None."""
        numbers = self.names.get(name)
        if not numbers:
            return None
        return numbers[0] if len(numbers) == 1 else next(number for number in self.items if number in numbers)

    def remove(self, number):
        item = self.items.pop(number)
        self.names[item.birth, item.key].remove(number)
        return item

    def scan(self, policy, asked):
        """Scans from the head; the visits, the items that were freed, and whether a callback stopped it."""
        skipped, freed, visits, stopped = [], [], 0, False
        while visits < asked and self.items and not stopped:
            number, item = self.items.popitem(last=False)
            last, visits = not self.items, visits + 1
            if item.pinned and policy != "plain":
                skipped.append((number, item))
                stopped = policy == "halt"
            elif policy == "clock" and item.marked:
                self.items[number] = item._replace(marked=False)
                if last:
                    break
            else:
                self.names[item.birth, item.key].remove(number)
                freed.append(item)
        for number, item in reversed(skipped):
            self.items[number] = item
            self.items.move_to_end(number, last=False)
        return visits, freed, stopped


class Replay:
    """What a journal did: for each entry the length before it, the named item and what it freed; what is left."""

    def __init__(self, entries, given):
        self.lengths, self.named, self.freed, self.wrong = [0], [], [], None
        self.moved, items = [], Items()
        for number, entry in enumerate(entries):
            items, named, freed, told = self.step(items, entry, given)
            self.named.append(named)
            self.freed.append(freed)
            self.lengths.append(len(items))
            if told and self.wrong is None:
                self.wrong = (number, told)
        self.left = items.all()

    def step(self, items, entry, given):
        """The items after an entry, the item that it names, what it frees, and what is wrong with its outcome."""
        if entry.kind == "closed":
            return Items(), None, [], None
        if entry.kind == "drained":
            freed = items.all()
            return Items(), None, freed, of_number("drained", entry.objects, len(freed))
        if entry.kind == "moved":
            moved = [] if entry.birth in self.moved else given(entry.birth)
            self.moved.append(entry.birth)
            return Items([*moved, *items.all()]), None, [], of_number("moved in", entry.objects, len(moved))
        if entry.kind == "scan":
            visits, freed, stopped = items.scan(entry.policy, entry.asked)
            return items, None, freed, of_scan(entry, visits, len(freed), stopped)
        number = items.find((entry.birth, entry.key))
        named = None if number is None else items.items[number]
        return items, named, change(items, entry, number, named), of_outcome(entry, named)


def change(items, entry, number, named):
    """Does what a tenant's entry does; the items that it frees."""
    if entry.kind == "add":
        if named is None:
            items.append(Item(entry.by, entry.birth, entry.key, entry.value, False, False))
    elif named is None:
        pass
    elif entry.kind == "look":
        items.items[number] = named._replace(marked=True)
    elif entry.kind == "drop":
        return [] if named.pinned else [items.remove(number)]
    else:
        items.items[number] = named._replace(pinned=entry.kind == "pin")
    return []


def of_number(what, told, right):
    return None if told == right else f"it says that {told} objects were {what}, and the list had {right}"


def of_scan(entry, visits, freed, stopped):
    told, right = (entry.visits, entry.freed, entry.outcome), (visits, freed, "stopped" if stopped else "whole")
    return (
        None if told == right else
        "it says {} visits, {} freed, {}, and a scan of that list gives {}, {}, {}".format(*told, *right)
    )


def of_outcome(entry, named):
    there = named is not None
    right = {
        "add": "exists" if there else "added", "look": "hit" if there else "miss", "pin": "done" if there else "miss",
        "unpin": "done" if there else "miss", "drop": ("pinned" if there and named.pinned else "dropped") if there else "miss",
    }[entry.kind]
    if entry.outcome == right:
        return None
    return f"it says `{entry.outcome}`, and the list then had {'such an object' if there else 'no such object'}, so `{right}`"


class Journals:
    """The journals of all lists, and what each leaves. A place that isn't printed has the empty one."""

    def __init__(self, report, parents):
        self.parents, self.lists, self.replays, self.gives = parents, {}, {}, {}
        for found in report.lists:
            self.lists.setdefault(found.place, found)
        self.closed = {place for place, found in self.lists.items() if any(entry.kind == "closed" for entry in found.entries)}

    def entries(self, place):
        found = self.lists.get(place)
        return found.entries if found else []

    def is_child(self, group, child):
        return 0 < child < len(self.parents) and self.parents[child] == group

    def given(self, place, child):
        """What the list of a child gives to a place: its items before it was closed."""
        if not self.is_child(place.group, child):
            return []
        at = Place(place.id, place.node, child)
        if at not in self.gives:
            entries = self.entries(at)
            until = next((number for number, entry in enumerate(entries) if entry.kind == "closed"), len(entries))
            self.gives[at] = Replay(entries[:until], lambda below: self.given(at, below)).left
        return self.gives[at]

    def replay(self, place):
        if place not in self.replays:
            self.replays[place] = Replay(self.entries(place), lambda child: self.given(place, child))
        return self.replays[place]

    def left(self, place):
        return self.replay(place).left if place in self.lists else []

    def length_at(self, place, version):
        """How many items were there after so many entries, or None where there are fewer entries."""
        lengths = self.replay(place).lengths
        return lengths[version] if version < len(lengths) else None
