"""table.txt: the names of each kind of call, and lines that say what a call asks for."""
import os, re
from collections import defaultdict, namedtuple
from itertools import groupby

TABLE = f"{os.path.dirname(os.path.realpath(__file__))}/table.txt"
# a call on n bytes in k segments: how many requests it made, the bytes of all of them, and what is wrong, if anything
Rung = namedtuple("Rung", "n k requests asked fault")
# what each kind of call may ask for
KINDS = {
    "none": lambda it: it.requests == 0,
    "shares": lambda it: it.asked <= 400 * (it.k + 1),
    "copies": lambda it: it.requests <= 8 and it.asked <= it.n + 400 * (it.k + 1),
    "packs": lambda it: it.asked <= (400 * it.k + 8_192 if it.n // it.k > 512 else 4 * it.n + 8_192 * (it.k + 1)),
    "grows": lambda it: it.asked <= 4 * it.n + 8_192 * (it.k + 1),
}


def read_table():
    """The names of each kind of call, and the lines of numbers."""
    with open(TABLE, encoding="utf-8") as file:
        text = file.read()
    kinds = re.findall(r"^(\w[\w ]*): .*\n((?:[^|\n]+\n)+)", text, re.M)
    return {kind: re.split(r",\s+", names.strip()) for kind, names in kinds}, re.findall(r"^.* \| .*$", text, re.M)


def write_table(lines):
    """Puts these lines of numbers in place of those that are there."""
    with open(TABLE, encoding="utf-8") as file:
        head = re.sub(r"^.* \| .*\n", "", file.read(), flags=re.M)
    with open(TABLE, "w", encoding="utf-8") as file:
        file.write(head + "".join(f"{it}\n" for it in lines))


def lines_of(call, rungs):
    """The lines for a call. In one are neighbouring sizes, and numbers of segments, whose bytes are one sum: of some
    times n, some for each segment, and some more."""
    groups = defaultdict(dict)
    for k, of in groupby(sorted(rungs, key=lambda it: (it.k, it.n)), lambda it: it.k):
        of = [it for it in of if it.n > 0 or it.requests > 0]
        for start, end, times in runs_of(of):
            low, high = "" if start == 0 else of[start].n, "" if end == len(of) else of[end - 1].n
            groups[low, high, of[start].requests, times][k] = of[start].asked - times * of[start].n
    for (low, high, requests, times), more in groups.items():
        slope = slope_of(more)
        alike = [[*more]] if slope else [[k for k in more if more[k] == it] for it in dict.fromkeys(more.values())]
        for ks in alike:
            asks = f"{said(requests, 'request')}, {formula(times, slope, more[ks[0]] - slope * ks[0])} bytes"
            sizes = f"at {low:,}" if low == high != "" else " ".join(f"{word} {n:,}" for word, n in ends(low, high))
            where = f"k = {', '.join(map(str, ks))}"
            yield f"{call} | {sizes or 'any n'} | {where} | {asks if requests else 'no request'}"


def ends(low, high):
    return [(word, n) for word, n in (("from", low), ("to", high)) if n != ""]


def runs_of(of):
    """The longest runs of rungs that ask for the same, or for some times n and the same more: where each begins and
    ends, and how many times."""
    start = 0
    while start < len(of):
        to = {times: start + same_from(of[start:], times) for times in range(5)}
        times = max(to, key=lambda it: (to[it], -it))
        yield start, to[times], times
        start = to[times]


def same_from(of, times):
    """How many of these rungs ask for as many requests and bytes, but for some times n, as the first."""
    what = lambda it: (it.requests, it.asked - times * it.n)
    return next((at for at, it in enumerate(of) if what(it) != what(of[0])), len(of))


def slope_of(more):
    """How many bytes each further segment adds, or 0 if the number isn't always the same."""
    (first, least), (last, most) = min(more.items()), max(more.items())
    slope = (most - least) // max(last - first, 1)
    return slope if slope > 0 and all(it == least + slope * (k - first) for k, it in more.items()) else 0


def formula(times, each, more):
    terms = [f"{times} n".removeprefix("1 ")] * (times > 0) + [f"{each:,} k"] * (each > 0)
    return " + ".join([*terms, f"{more:,}"] if more or not terms else terms).replace("+ -", "- ")


def said(number, word):
    return f"{number:,} {word}{'s' * (number != 1)}"
