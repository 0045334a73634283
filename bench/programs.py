"""What the measurements share: their options, the programs that they build and run, and the count of what is right."""
import argparse, os, re, shutil, subprocess, sys, tempfile
from contextlib import contextmanager
from pathlib import Path

ROOT = os.path.dirname(os.path.dirname(os.path.realpath(__file__)))
SPEED = f"{ROOT}/docs/SPEED.md"
sys.path.append(f"{ROOT}/.ci")
from kit import build, counted, tried

MIB = 1 << 20
# the crate of our program, and the libraries that it uses
CRATE, USES = "bench", ["std", "bytes_utils_protocols", "bytes_utils_codec", "bytes_utils", "bytes_utils_buf", "bytes"]
# how a column is named that has ratios, or multiples of the bytes held
RATIO = re.compile("of the |of Rust|ratio|all / half|`Framed`|`SegmentedBuf`|in Rust")
DEBIAN = ["source.crates-io.replace-with='debian'", "source.debian.directory='/usr/share/cargo/registry'"]


def options(description, beside_crate=False):
    """The options that a measurement is given; `--crate` of those beside the Rust crate."""
    parser = argparse.ArgumentParser(description=description, formatter_class=argparse.RawDescriptionHelpFormatter)
    quick = "ours alone on short inputs: whether its counts are right, and no time"
    parser.add_argument("--quick", action="store_true", help=quick)
    place = "where the programs are built and stay; one that is there is run as it is"
    parser.add_argument("--in", dest="folder", help=place)
    parser.add_argument("--table", type=int, help="that table alone; the first one is 1")
    parser.add_argument("--write", action="store_true", help="also put each table into docs/SPEED.md")
    if beside_crate:
        parser.add_argument("--crate", help="the folder of bytes-utils 0.1.4, which has its Cargo.toml")
    asked = parser.parse_args()
    if beside_crate and not asked.quick and not asked.crate:
        parser.error("--crate is needed: the folder of bytes-utils 0.1.4")
    return asked


def print_tables(asked, tables):
    """Prints the tables that are asked for, each the names of its columns and its rows, as soon as a row is there."""
    for number, (heads, rows) in enumerate(tables, 1):
        if asked.table in (None, number):
            lines = [line_of(heads), f"|{'---|' * len(heads)}"]
            print(*lines, sep="\n")
            for row in rows:
                lines.append(line_of(row))
                print(lines[-1], flush=True)
            print()
            if asked.write:
                write(lines)


def line_of(cells):
    return f"| {' | '.join(cells)} |".replace("|  |", "| |").replace("|  |", "| |")


def cells_of(line):
    return [it.strip() for it in line.strip().strip("|").split("|")]


def ratios_of(heads, line):
    """The numbers of a row in the columns of ratios."""
    cells = [cell for head, cell in zip(cells_of(heads), cells_of(line)) if RATIO.search(head)]
    return [float(it) for cell in cells for it in re.findall(r"[\d.]+", cell)]


def kept(heads, rows, text):
    """The rows that docs/SPEED.md has, by their first cells, and each other one with a ratio beyond theirs."""
    names = [cells_of(it)[0] for it in re.findall(r"^\|.*$", text, re.M)]
    here = [it for it in rows if cells_of(it)[0] in names] or rows
    spans = [(min(it), max(it)) for it in zip(*(ratios_of(heads, it) for it in here))]
    is_within = lambda row: all(low <= it <= high for it, (low, high) in zip(ratios_of(heads, row), spans))
    return [it for it in rows if it in here or not is_within(it)]


def write(lines):
    """Puts a table into docs/SPEED.md, in place of the one that has the same columns."""
    text = open(SPEED, encoding="utf-8").read()
    place = re.escape(f"{lines[0]}\n") + r"(?:\|.*\n)+"
    if len(re.findall(place, text)) != 1:
        sys.exit(f"docs/SPEED.md has no such table, or two: {lines[0]}")
    table = "".join(f"{it}\n" for it in [*lines[:2], *kept(lines[0], lines[2:], re.search(place, text)[0])])
    open(SPEED, "w", encoding="utf-8").write(re.sub(place, lambda _: table, text))


def called(words, folder=".", given=""):
    """What a program writes on standard output for this input; where it fails, all ends."""
    done = subprocess.run(words, cwd=folder, input=given, capture_output=True, text=True)
    if done.returncode:
        sys.exit(f"{' '.join(words)} failed in {folder}:\n{(done.stdout + done.stderr)[-3000:]}")
    return done.stdout


@contextmanager
def programs(folder, builds):
    """A folder, this one or a temporary one, that has the programs of these names. Each is built by its function of the
    folder."""
    with tempfile.TemporaryDirectory(prefix="bench-") as made:
        room = os.path.realpath(folder or made)
        os.makedirs(room, exist_ok=True)
        for name, built in builds.items():
            if not os.path.exists(f"{room}/{name}"):
                os.rename(built(room), f"{room}/{name}")
        yield room


def source(folder, room):
    """The folder with the crate of a program of ours, whose files a folder of bench/ has."""
    renamed = lambda file, to: shutil.copy(file, to.removesuffix(".txt"))
    shutil.copytree(f"{ROOT}/bench/{folder}", f"{room}/ours_source/src", copy_function=renamed, dirs_exist_ok=True)
    return f"{room}/ours_source"


def ours(room):
    """Builds our program of all benches, over the crates of the repository, which `rt lib` builds before as far as they
    have changed, and the kit's."""
    called(["rt", "lib"], f"{ROOT}/crates/bytes_utils_protocols")
    said = build(CRATE, USES, source("ours", room), f"{room}/ours_made")
    if not os.path.isfile(f"{room}/ours_made"):
        sys.exit(f"our program isn't proved:\n{said[-3000:]}")
    return f"{room}/ours_made"


def command(room, program, bench):
    """How a program of a bench is called, before its own arguments: ours is told which bench it is for."""
    return [f"{room}/{program}", *[bench] * (program == "ours")]


def rust(bench, original=""):
    """How the Rust program of a bench is built: over Debian's crates, and over bytes-utils in the folder `original`, if
    that is given."""

    def built(room):
        shutil.copytree(f"{ROOT}/bench/{bench}/rust", f"{room}/rust_source", dirs_exist_ok=True)
        settings = DEBIAN + [f"patch.crates-io.bytes-utils.path='{os.path.realpath(original)}'"] * bool(original)
        more = [it for setting in settings for it in ("--config", setting)]
        called(["cargo", "build", "--release", "--offline", *more], f"{room}/rust_source")
        return f"{room}/rust_source/target/release/{bench}"

    return built


def tried_on(cases, folder):
    """The exit status and the output of our program, unproved, on each case: its arguments, its input, and the output
    that is compared to the byte, or nothing, where the output comes with a line feed after it."""
    with tempfile.TemporaryDirectory(prefix="cases-") as room:
        for number, (words, given, wanted) in enumerate(cases):
            Path(room, f"{number:03}").write_bytes(given)
            Path(room, f"{number:03}.args").write_text("".join(f"{it}\n" for it in words))
            if wanted is not None:
                Path(room, f"{number:03}.stdout").write_bytes(wanted)
        said = tried(CRATE, USES, folder, room)
    for number, (*_, wanted) in enumerate(cases):
        name = f"{number:03}"
        it = re.search(rf"(?:^== {name}\n(.*?))?^case={name} run=ended status=(\d+)(.*?)$", said, re.M | re.S)
        output = wanted if it and "output=expected" in it[3] else (it and it[1] or said[-2000:]).encode()
        yield int(it[2]) if it else None, output


def judged(benches):
    """Builds our program unproved, runs it on the cases of each bench, and gives each with what is wrong with it, or an
    empty text. A case is its name, the bench's arguments, its input, and what is right: all that the program writes, or
    the numbers that this begins with."""
    cases = [(f"{of}: {name}", [of, *words], *more) for of, each in benches.items() for name, words, *more in each]
    given = [(map(str, words), it, right if isinstance(right, bytes) else None) for _, words, it, right in cases]
    with tempfile.TemporaryDirectory(prefix="bench-") as room:
        ended = [*tried_on(given, source("ours", room))]
    for (name, *_, right), (status, wrote) in zip(cases, ended):
        seen = wrote if isinstance(right, bytes) else [*map(int, re.findall(rb"\d+", wrote))][: len(right)]
        is_right = status == 0 and seen == right
        yield name, "" if is_right else f"status {status}, {wrote[-300:]}, where {right[:50]} is right"
