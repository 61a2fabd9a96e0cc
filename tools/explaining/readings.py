"""Readings of the laws that `audit` may change: each is one line here, and is as `audit` reads the law today."""

# L1: a place that an answer cites is one of the script. If this isn't asked, L2 refuses the list that stands there.
CITED_PLACES_ARE_THERE = False
# L2: a group that is done is one of the tree. If this isn't asked, L6 refuses the journal of the tree.
DONE_GROUPS_ARE_THERE = False
# L4: the group and the node of a walk, the ids of its maps and of its attempts are there. If this isn't asked, later laws refuse
# some of them.
WALKS_ARE_THERE = False
# L4: a held attempt is judged by the registration in which its lookup lies. If this isn't so, its number must also be below the
# printed lookups of the id.
HELD_BY_REGISTRATION_ALONE = False
# L9: one answer alone cites a Made as its own.
MADE_IS_CITED_ONCE = True
