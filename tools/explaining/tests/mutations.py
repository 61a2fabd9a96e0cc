"""Good scripts with one mistake put in, by a seed."""

WORDS = (
    b"group", b"later", b"cache", b"pool", b"worker", b"sweep", b"end", b"put", b"grap", b"lru", b"fs", b"any", b"on", b"max",
    b"0", b"1", b"2", b"12", b"13", b"64", b"256", b"20001", b"1000001", b"-1", b"+1", b"01", b"6M", b"0x10", b"1.5", b"", b"/",
    b"/a", b"/zz", b"a", b"A", b"=", b"=x", b"k", b"x" * 17, b"x" * 65, b"/" + b"x" * 33, b"#", b"isolate", b"release", b"grab",
)
BYTES = b" \t\r\n\0/=_#-Aa09z~\x7f\x80\xff"
BEHIND = (b"\n", b" ", b"x", b"end\n", b"shrinkers 1\n", b"report 1\n", b"\r\n")


def of_bytes(random, data):
    """A byte put in, taken out or changed."""
    at, byte = random.randrange(len(data)), bytes([random.choice(BYTES)])
    return random.choice((data[:at] + byte + data[at:], data[:at] + data[at + 1:], data[:at] + byte + data[at + 1:]))


def of_lines(random, data):
    """A line left out, doubled, moved or swapped with another."""
    lines = data.split(b"\n")[:-1]
    at, to = random.randrange(len(lines)), random.randrange(len(lines))
    how = random.randrange(4)
    if how == 0:
        del lines[at]
    elif how == 1:
        lines.insert(to, lines[at])
    elif how == 2:
        lines.insert(to, lines.pop(at))
    else:
        lines[at], lines[to] = lines[to], lines[at]
    return b"".join(line + b"\n" for line in lines)


def changed_line(random, data, change):
    """One line changed."""
    lines = data.split(b"\n")
    at = random.randrange(len(lines) - 1)
    lines[at] = change(lines[at])
    return b"\n".join(lines)


def of_words(random, data):
    """A word left out, doubled, swapped with another of its line, or another word in its place."""
    def change(line):
        words = line.split(b" ")
        at, to, how = random.randrange(len(words)), random.randrange(len(words)), random.randrange(5)
        if how == 0:
            del words[at]
        elif how == 1:
            words.insert(to, words[at])
        elif how == 2:
            words[at], words[to] = words[to], words[at]
        else:
            words[at] = random.choice(WORDS) if how == 3 else random.choice(data.split())
        return b" ".join(words)
    return changed_line(random, data, change)


def of_blanks(random, data):
    """Blanks, carriage returns and comments where none may stand."""
    changes = (
        lambda line: b" " + line, lambda line: b"\t" + line, lambda line: line + b" ", lambda line: line + b"\r",
        lambda line: line.replace(b" ", b"  ", 1), lambda line: line.replace(b" ", b"\t", 1), lambda line: b"\n" + line,
        lambda line: line + b" # why", lambda line: b"# why\n" + line, lambda line: b"//\n" + line,
    )
    return changed_line(random, data, random.choice(changes))


def of_letters(random, data):
    """A word in upper case, with a letter left out, or with two letters swapped."""
    def change(line):
        words = line.split(b" ")
        at = random.randrange(len(words))
        word, how = words[at], random.randrange(3)
        cut = random.randrange(len(word) + 1)
        words[at] = (word.upper(), word[:cut] + word[cut + 1:], word[:cut] + word[cut:][:2][::-1] + word[cut + 2:])[how]
        return b" ".join(words)
    return changed_line(random, data, change)


def of_file(random, data):
    """The whole file: its first bytes, its line ends, its version, its end."""
    return random.choice((
        lambda: b"\xef\xbb\xbf" + data, lambda: data.replace(b"\n", b"\r\n"), lambda: data.replace(b"\n", b"\r"),
        lambda: data.replace(b"shrinkers 2", b"shrinkers 1", 1), lambda: data.replace(b"shrinkers 1", b"shrinkers 2", 1),
        lambda: data[:random.randrange(len(data))], lambda: data + random.choice(BEHIND), lambda: data[:-1],
        lambda: data.decode().encode("utf-16"), lambda: data.replace(b"size 2", b"size 1", 1), lambda: b"",
    ))()


KINDS = (of_bytes, of_lines, of_words, of_words, of_blanks, of_letters, of_file)


def mutated(random, data):
    return random.choice(KINDS)(random, data)
