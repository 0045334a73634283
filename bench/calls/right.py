"""What each work has to give: the same texts and segments, made and cut by Python."""
import re

DEVIL = "\U0001f608"
AT_COMMAS = [","], lambda text: text.split(",")
AT_DEVILS = [DEVIL], lambda text: text.split(DEVIL)
CHARACTERS = [DEVIL], lambda text: ["", *text, ""]
# what is between the words of a work's text, and how Python cuts it
WORKS = {
    **dict.fromkeys(["split", "splitn", "rsplit", "rsplitn", "fields"], AT_COMMAS),
    "inclusive": ([","], lambda text: re.findall("[^,]*,|[^,]+$", text)),
    **dict.fromkeys(["split4", "rsplit4", "push_str"], AT_DEVILS),
    **dict.fromkeys(["characters", "rcharacters"], CHARACTERS),
    "push_char": ([DEVIL], list),
    "lines": (["\n"], lambda text: text.split("\n")),
    "words": ([" ", " ", "\n", "\u2003"], str.split),
    "ascii_words": ([" ", " ", "\n", "\t"], str.split),
}


def numbers():
    """The numbers that the programs make their texts and segments by."""
    number = 12345
    while True:
        number = (number * 6364136223846793005 + 1442695040888963407) % (1 << 64)
        yield number


def text_of(size, between):
    """So many bytes or some more, in words of 1 to 12 letters, with one of `between` between two words."""
    text, length = [], 0
    for number in numbers():
        letters = range(number >> 20, (number >> 20) + (number >> 33) % 12 + 1)
        text += ["".join(chr(ord("a") + it % 26) for it in letters)]
        if length + len(text[-1]) >= size:
            return "".join(text)
        text += [between[(number >> 40) % len(between)]]
        length += sum(len(it.encode()) for it in text[-2:])


def right_cut(work, size):
    """How many parts Python cuts the same text into, and how many bytes they have together."""
    between, cut = WORKS[work]
    parts = cut(text_of(size, between))
    return [len(parts), sum(len(it.encode()) for it in parts)]


def right_read(work, count):
    """How many elements there are in the same segments, and how many bytes."""
    lengths = [(number >> 33) % 64 + 1 for number, _ in zip(numbers(), range(count))]
    taken = {"advance": 7, "copy": 100}.get(work)
    return [-(-sum(lengths) // taken) if taken else len(lengths), sum(lengths)]
