"""Where two reports differ, line by line."""

from difflib import SequenceMatcher

MOST = 20


def differences(ours, linux):
    """The differing lines of two reports, each as its number, the program's line and Linux's, None where it has none."""
    front = 0
    while front < min(len(ours), len(linux)) and ours[front] == linux[front]:
        front += 1
    back = 0
    while back < min(len(ours), len(linux)) - front and ours[-1 - back] == linux[-1 - back]:
        back += 1
    one, other = ours[front : len(ours) - back], linux[front : len(linux) - back]
    if len(one) > 4000 or len(other) > 4000:
        return pairs(front, one, other)
    found = []
    for kind, begin, end, first, last in SequenceMatcher(None, one, other, autojunk=False).get_opcodes():
        if kind != "equal":
            found += pairs(front + begin, one[begin:end], other[first:last])
    return found


def pairs(at, one, other):
    """Two runs of lines side by side."""
    longest = max(len(one), len(other))
    one, other = one + [None] * (longest - len(one)), other + [None] * (longest - len(other))
    return [(at + number + 1, mine, theirs) for number, (mine, theirs) in enumerate(zip(one, other)) if mine != theirs]


def show(found):
    """The first differences as text."""
    lines = []
    for number, mine, theirs in found[:MOST]:
        lines.append(f"  line {number}: the program  {mine if mine is not None else '(no line)'}")
        lines.append(f"  {' ' * len(f'line {number}:')} Linux        {theirs if theirs is not None else '(no line)'}")
    if len(found) > MOST:
        lines.append(f"  and {len(found) - MOST} more")
    return lines
