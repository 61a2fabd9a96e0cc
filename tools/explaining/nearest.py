"""The nearest of some words, for a name that isn't there."""


def distance(left, right, most):
    """How many letters are put in, taken out, changed or swapped with the next; above `most` any number above it."""
    if abs(len(left) - len(right)) > most:
        return most + 1
    before, row = None, list(range(len(right) + 1))
    for i, letter in enumerate(left, 1):
        last, before, row = before, row, [i]
        for j, other in enumerate(right, 1):
            cost = min(before[j] + 1, row[j - 1] + 1, before[j - 1] + (letter != other))
            if last and j > 1 and letter == right[j - 2] and left[i - 2] == other:
                cost = min(cost, last[j - 2] + 1)
            row.append(cost)
    return row[-1]


def nearest(word, known):
    """The word of `known` that differs least, or None where each differs in more than a third of its letters."""
    most = max(1, min(len(word) // 3, 4)) if word else 0
    word, best = word[:100], None
    for other in known:
        found = distance(word, other, most)
        if found <= most and other != word:
            most, best = found - 1, other
        if most < 1:
            break
    return best
