"""The texts that are searched, and the lists of patterns: made anew each time, by fixed sequences of pseudo-random
numbers, so that they are the same on each machine."""

import random
from pathlib import Path

COMMON = (
    "the of and a to in is you that it he was for on are as with his they at be this have from or one had by word but "
    "not what all were we when your can said there use an each which she do how their if will up other about out many "
    "then them these so some her would make like him into time has look two more write go see number no way could "
    "people my than first water been call who oil its now find long down day did get come made may part"
).split()
LETTERS = "etaoinshrdlucmfwypvbgkjqxz"
MEGABYTE = 1 << 20


def common(megabytes):
    """Lines of three to twelve of the commonest English words; a megabyte of them so many times over."""
    chance, lines, size = random.Random(1), [], 0
    while size < MEGABYTE:
        lines.append(" ".join(chance.choices(COMMON, k=chance.randint(3, 12))))
        size += len(lines[-1]) + 1
    return ("\n".join(lines) + "\n").encode() * megabytes


def dictionary():
    """20,000 made-up words of 4 to 10 letters, frequent letters first."""
    chance, words = random.Random(11), {}
    while len(words) < 20_000:
        word = "".join(LETTERS[int(26 * chance.random() * chance.random())] for _ in range(chance.randint(4, 10)))
        words[word] = None
    return list(words)


def prose(words, megabytes):
    """Lines of four to thirteen of these words, of which the first ones are frequent."""
    chance, lines, size, count = random.Random(3), [], 0, len(words)
    while size < megabytes * MEGABYTE:
        line = " ".join(words[int(count * chance.random() * chance.random())] for _ in range(chance.randint(4, 13)))
        lines.append(line)
        size += len(line) + 1
    return ("\n".join(lines) + "\n").encode()


def altered(words, count):
    """So many of the words with another last letter, so that each begins in the text and stands nowhere."""
    return [word[:-1] + "Z" for word in words[:count]]


def known(words, count):
    """So many of the words, frequent and rare ones."""
    return words[3 :: len(words) // count][:count]


def alike(words, count):
    """So many strings that begin as the most frequent word does, and stand nowhere."""
    return [words[0][:3] + word[-4:] + "Z" for word in words[:count]]


def beginnings(words):
    """Each beginning of some words that has two letters or more, and the words."""
    return dict.fromkeys(word[:stop] for word in words for stop in range(2, len(word) + 1))


def nested(least, most):
    """Strings as `x`, `xy-x`, `xy-xy-x` and on, each of which ends inside of a word where the next one begins with it,
    from one with so many times `xy-` up to another."""
    return "".join("xy-" * at + "x\n" for at in range(least, most)).encode()


def joined(megabytes):
    """Lines in which all of these strings begin at each third place, and none is a word but at the end."""
    return ("xy-" * 66 + "xy\n").encode() * (megabytes * MEGABYTE // 201)


def folders(words, count):
    """So many directories, with those in which they lie."""
    chance, found = random.Random(19), {}
    while len(found) < count:
        path = "/usr"
        for _ in range(chance.randint(2, 6)):
            path += f"/{chance.choice(words)}"
            found[path] = None
    return list(found)[:count]


def opened(words, megabytes):
    """Lines of a log, each with a file in such a directory or in another one."""
    chance, lines, size = random.Random(23), [], 0
    while size < megabytes * MEGABYTE:
        path = "/".join(chance.choice(words) for _ in range(chance.randint(2, 8)))
        lines.append(f"{chance.randint(0, 999_999):06} open /usr/{path}.h ok")
        size += len(lines[-1]) + 1
    return ("\n".join(lines) + "\n").encode()


def names(words, count):
    """So many names of up to seven parts, of which many begin with others."""
    chance, found = random.Random(29), {}
    while len(found) < count:
        found[".".join(chance.choice(words) for _ in range(chance.randint(1, 7)))] = None
    return list(found)


def dotted(words, megabytes):
    """Lines of three such names each, of up to nine parts."""
    chance, lines, size = random.Random(31), [], 0
    while size < megabytes * MEGABYTE:
        row = (".".join(chance.choice(words) for _ in range(chance.randint(1, 9))) for _ in range(3))
        lines.append(" ".join(row))
        size += len(lines[-1]) + 1
    return ("\n".join(lines) + "\n").encode()


def number(at):
    """One of many names that begin alike."""
    return f"order-{at:06}"


def numbers(count, megabytes):
    """Lines of such a number each, of which this many are on a list and three times as many are not."""
    chance, lines = random.Random(13), []
    while 13 * len(lines) < megabytes * MEGABYTE:
        lines.append(number(chance.randint(0, 4 * count - 1)))
    return ("\n".join(lines) + "\n").encode()


def orders(count, megabytes):
    """Lines of a log, each with such a number, of which one in twenty is on a list."""
    chance, lines, size = random.Random(17), [], 0
    while size < megabytes * MEGABYTE:
        seconds, took = chance.randint(0, 59), chance.randint(1, 999)
        line = f"2026-11-28 12:00:{seconds:02} INFO {number(chance.randint(0, 20 * count - 1))} done in {took} ms"
        lines.append(line)
        size += len(line) + 1
    return ("\n".join(lines) + "\n").encode()


def wide(words, megabytes):
    """Lines of 13,000 of these words each, some 100,000 bytes."""
    chance, lines, size = random.Random(7), [], 0
    while size < megabytes * MEGABYTE:
        lines.append(" ".join(chance.choices(words, k=13_000)))
        size += len(lines[-1]) + 1
    return ("\n".join(lines) + "\n").encode()


def single(words, megabytes):
    """One line of so many megabytes of these words."""
    line = " ".join(random.Random(13).choices(words, k=megabytes * MEGABYTE // 7))
    return (line[: megabytes * MEGABYTE] + "\n").encode()


def sequence(count):
    """The numbers from 1 on, a line each."""
    return "".join(f"{number}\n" for number in range(1, count + 1)).encode()


def settings(count):
    """So many short lines as in files of settings: comments, names with values, headings, and empty lines."""
    lines = ("# a comment", "key = value", "", "  indented: yes", "[section]")
    return ("\n".join(random.Random(19).choices(lines, k=count)) + "\n").encode()


def log(megabytes):
    """Lines of a web server's log, with addresses, methods and identifiers."""
    chance, lines, size = random.Random(5), [], 0
    while size < megabytes * MEGABYTE:
        address = ".".join(str(chance.randint(0, 255)) for _ in range(3))
        time = f"{chance.randint(0, 23):02}:{chance.randint(0, 59):02}:{chance.randint(0, 59):02}"
        method = chance.choice(("GET", "POST", "PUT", "DELETE", "HEAD"))
        digits = f"{chance.getrandbits(128):032x}"
        uuid = "-".join((digits[:8], digits[8:12], digits[12:16], digits[16:20], digits[20:]))
        item = f"/item?id={chance.randint(0, 99_999)}"
        status = 404 if chance.random() < 0.1 else 200
        line = f'10.{address} - - [25/Nov/2026:{time}] "{method} {item} HTTP/1.1" {status} {uuid}'
        lines.append(line)
        size += len(line) + 1
    return ("\n".join(lines) + "\n").encode()


def agents(megabytes):
    """Lines of a log that all end alike, with the program that asked."""
    chance, lines, size = random.Random(29), [], 0
    while size < megabytes * MEGABYTE:
        path, status = f"/item/{chance.getrandbits(40):x}", chance.choice((200, 200, 301, 404))
        line = f'"GET {path} HTTP/1.1" {status} {chance.randint(0, 99_999)} "-" "Mozilla/5.0 (X11; Linux x86_64)"'
        lines.append(line)
        size += len(line) + 1
    return ("\n".join(lines) + "\n").encode()


def one_line():
    """One line of 13 MB, an array of 700,000 objects."""
    return ("".join(f'{{"id":{number},"n":1}},' for number in range(700_000)) + "\n").encode()


def near_misses(megabytes):
    """Lines of 200 times the letter a."""
    return (b"a" * 200 + b"\n") * (megabytes * MEGABYTE // 201)


def pairs(megabytes):
    """Lines of pairs of capitals and of digits, and no three in a row."""
    return (b"ABx12-" * 30 + b"\n") * (megabytes * MEGABYTE // 181)


def late_hits(megabytes):
    """The same lines with a `b` at the end of each."""
    return (b"a" * 200 + b"b\n") * (megabytes * MEGABYTE // 202)


def binary(megabytes):
    """The first megabytes of the programs of this machine, which have bytes of every kind and lines of any length."""
    parts, size = [], 0
    for path in sorted(Path("/usr/bin").iterdir()):
        if size >= megabytes * MEGABYTE:
            break
        if path.is_file() and not path.is_symlink():
            parts.append(path.read_bytes())
            size += len(parts[-1])
    return b"".join(parts)[: megabytes * MEGABYTE]


def make_tree(folder):
    """20,000 files of 100 short lines in 200 directories, of which each tenth line holds `needle`."""
    lines = [f"a needle in line {i}" if i % 10 == 0 else f"some words of a line that is number {i}" for i in range(100)]
    text = ("\n".join(lines) + "\n").encode()
    for number in range(200):
        below = folder / f"d{number}"
        below.mkdir(parents=True)
        for file in range(100):
            (below / f"f{file}").write_bytes(text)


def make_empty_files(folder, count):
    """Empty files in one directory."""
    folder.mkdir(parents=True)
    for file in range(count):
        (folder / f"f{file}").touch()


def make_sources(folder, words):
    """Some 5,000 files as in a tree of sources: of 200 bytes to 400 KB, most of them of some KB, in 1,500 directories
    within one another, most of which hold few files."""
    chance, text, below = random.Random(31), prose(words, 1), [folder]
    for number in range(1_500):
        below.append(chance.choice(below) / f"d{number}")
        below[-1].mkdir(parents=True)
        for file in range(int(chance.expovariate(1 / 4))):
            size = min(400_000, int(200 * 2 ** max(0, chance.gauss(5, 2))))
            start = chance.randrange(len(text) - size)
            (below[-1] / f"f{file}").write_bytes(text[start : start + size])
