"""The bits of groups: which ids a walk asks, and the bits that are set for a group whose lists were handed over."""

from collections import defaultdict
from typing import NamedTuple

from traced.observer import Observer
from traced.recording import EMPTY, is_null

# A bit is set some time after its event. What lies nearer together, in seconds, is left open.
NEAR = 0.02


class Bit(NamedTuple):
    """What is known of a bit: whether it is set, or None between the two counts of a walk."""

    is_set: bool | None
    line: int
    time: float


class Bits(Observer):
    """Holds the ids that a walk of a group asks against their order and against the bits that are known."""

    def __init__(self, departures):
        self.note = departures.note
        # by memcg and node: what is known of bits, by id, and the walks that are on their way
        self.maps, self.walks = defaultdict(dict), defaultdict(list)
        # by memcg and node and id: the lines that set or cleared a bit last
        self.sets, self.clears = {}, {}
        self.visited = self.second_counts = 0

    def set_bit(self, event, probe):
        key, id = (probe["memcg"], int(probe["nid"])), int(probe["id"])
        self.maps[key][id] = Bit(True, event.line, event.time)
        self.sets[key, id] = event.line

    def entered(self, walk):
        key = (walk.memcg, walk.node)
        walk.map = self.maps[key]
        walk.seen = dict(walk.map)
        self.walks[key].append(walk)
        walk.is_shared = len(self.walks[key]) > 1
        for other in self.walks[key] if walk.is_shared else ():
            other.is_shared = True

    def left(self, walk):
        walks = self.walks[walk.memcg, walk.node]
        if walk in walks:
            walks.remove(walk)

    def returned(self, made, line):
        if not made.has_probe or not made.of_group:
            return
        key = (made.memcg, made.node)
        bits, walks = self.maps[key], self.walks[key]
        if made.returned is None or len(walks) != 1 or walks[0].is_shared or made not in walks[0].passes[-1:]:
            bits.pop(made.id, None)
            self.clears[key, made.id] = line
        elif made.returned != EMPTY:
            bits[made.id] = Bit(True, line, made.time)
        elif made.first is None:
            # the kernel clears the bit now and counts again
            bits[made.id] = Bit(None, line, made.time)
            self.clears[key, made.id] = line
        elif (known := bits.get(made.id)) and known.is_set is None:
            bits[made.id] = Bit(False, line, made.time)

    def walked(self, walk):
        self.left(walk)
        if not walk.of_group or not (walk.passes or walk.seen):
            return
        ids = [made.id for made in walk.passes if made.first is None]
        self.visited += len(ids)
        self.second_counts += len(walk.passes) - len(ids)
        if any(after <= before for before, after in zip(ids, ids[1:])):
            asked = " ".join(str(id) for id in ids)
            self.note("order of bits", walk.end, f"the walk from line {walk.line} asks the ids {asked}")
        for made, after in zip(walk.passes, [*walk.passes[1:], None]):
            if made.first is None and made.returned == EMPTY and (after is None or after.first is not made):
                self.note("order of bits", walk.end, f"id {made.id} was empty at line {made.line} and wasn't counted again")
        if not walk.is_shared and self.maps.get((walk.memcg, walk.node)) is walk.map:
            self.hold(walk, set(ids))

    def hold(self, walk, ids):
        """Holds the ids that a walk asked against what was known of the bits when it began."""
        key = (walk.memcg, walk.node)
        for id, bit in walk.seen.items():
            if bit.is_set and id not in ids:
                if walk.time - bit.time > NEAR and self.clears.get((key, id), 0) < walk.line:
                    since = f"has its bit since line {bit.line}"
                    self.note("order of bits", walk.end, f"the walk from line {walk.line} doesn't ask id {id}, which {since}")
            elif bit.is_set is False and id in ids and self.sets and self.sets.get((key, id), 0) < bit.line:
                since = f"whose bit is clear since line {bit.line}"
                self.note("order of bits", walk.end, f"the walk from line {walk.line} asks id {id}, {since}")

    def carried(self, event, probe):
        for key in [key for key in self.maps if key[0] == probe["memcg"]]:
            del self.maps[key]

    def forget_id(self, event, probe):
        for key, bits in self.maps.items():
            bits.pop(int(probe["id"]), None)
            self.clears[key, int(probe["id"])] = event.line

    came = went = forget_id

    def forgot(self, event):
        self.maps.clear()
        self.walks.clear()


class LostBit:
    """A bit that was set for a group whose lists were handed over, and what came of the list above."""

    def __init__(self, event, probe, above):
        self.line, self.node, self.id = event.line, int(probe["nid"]), int(probe["id"])
        self.group, (self.above, self.memcg) = probe["group"], above
        self.unasked, self.set_before, self.asked_again, self.set_again = [], 0, 0, 0


class LostBits(Observer):
    """Finds bits that were set for a child whose lists are the parent's."""

    def __init__(self, bits):
        self.bits, self.parents, self.lost, self.places = bits, {}, [], defaultdict(list)

    def handed(self, event, probe):
        self.parents[probe["memcg"]] = (probe["above"], probe["parent"])

    def set_bit(self, event, probe):
        key, id = (probe["memcg"], int(probe["nid"])), int(probe["id"])
        for lost in self.places.get(key, ()):
            if lost.id == id and not lost.set_again:
                lost.set_again = event.line
        if probe["kid"] == probe["own"] or probe["group"] in ("0", "1") or is_null(probe["memcg"]):
            return
        lost = LostBit(event, probe, self.parents.get(probe["memcg"], (None, None)))
        known = self.bits.maps[lost.memcg, lost.node].get(id)
        if known and known.is_set:
            lost.set_before = known.line
        self.lost.append(lost)
        self.places[lost.memcg, lost.node].append(lost)

    def walked(self, walk):
        for lost in self.places.get((walk.memcg, walk.node), ()):
            if lost.asked_again:
                continue
            if any(made.id == lost.id for made in walk.passes):
                lost.asked_again = walk.line
            else:
                lost.unasked.append(walk.line)
