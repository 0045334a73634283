"""The rungs of each call: what the ladder's program says of it on bytes of some length, in some segments."""
import functools, os, re, subprocess, sys, tempfile
from collections import defaultdict
from itertools import chain
from pathlib import Path

sys.path.append(os.path.dirname(os.path.dirname(os.path.realpath(__file__))))
from programs import ROOT, source
from kit import C_CODE, CLANG, QUIET, TRY, each, tried, turn, written
from table import Rung, said

CRATES = ["bytes_utils_buf", "bytes_utils", "bytes_utils_codec", "bytes_utils_protocols"]
# the cases on which a wrong body is tried
FEW = [(n, k, 0) for n in (0, 1, 16, 513, 4_097) for k in (1, 2, 3) if k <= max(n, 1)]
FEW += [(4_097, 200, 0), (65_537, 3, 0)]
# what the heap and then the program print of a rung
ROW = re.compile(r"^(\d+) (\d+) (-?\d+) (\w+) (.+)$", re.M)
# where the program comes to a module
ARM = re.compile(r'^ +"(\w+)" .*=> \w+::climb\(.*\n', re.M)


def rungs(cases, crates=f"{ROOT}/crates", only=""):
    """Builds the program unproved, over its own heap and the crates in a folder, and runs it on the cases, its modules
    side by side: the rungs of each call, or of those of one module. It also refuses request after request of each call:
    what was tried, each with what is wrong with it."""
    found, refused = defaultdict(list), []
    with tempfile.TemporaryDirectory(prefix="ladder-") as room:
        folder = source("ladder/ours", room)
        modules = [only] if only else ARM.findall(Path(folder, "src/main.rt").read_text("utf-8"))
        fault = built(room, folder, modules, crates)
        commands = [["timeout", "300", f"{room}/ladder", it, *map(str, chain(*cases))] for it in modules]
        ended = [] if fault else each(ran, commands)
    for status, wrote in ended:
        texts = wrote.split("a rung\n")[1:]
        for (n, k, request), text in zip(cases, texts):
            what = f"request {request} of {n:,} bytes in {said(k, 'segment')}"
            for *numbers, word, call in ROW.findall(text):
                it = rung_of(n, k, request, word, *map(int, numbers))
                found[call] += [it] * (not request)
                refused += [(f"{call}, {what}", it.fault)] * bool(request)
        if status != 0 or len(texts) != len(cases):
            found["the program"].append(Rung(*cases[len(texts) - 1][:2], 0, 0, f"status {status}, {wrote[-1500:]}"))
    if fault:
        found["the program"].append(Rung(0, 0, 0, 0, fault))
    return found, refused


def built(room, folder, modules, crates):
    """What is wrong with the build of the program of some modules, which runs once, to copy itself into the room."""
    subprocess.run([*CLANG, "-c", "-o", f"{room}/heap.o", f"{ROOT}/bench/ladder/heap.c"], check=True)
    main = Path(folder, "src/main.rt")
    main.write_text(ARM.sub(lambda it: it[0] if it[1] in modules else "", main.read_text("utf-8")), "utf-8")
    heap = [f"{room}/heap.o", *(it for it in C_CODE if "liblibc" not in it)]
    written({"copy": "", "copy.args": f"copy\n{room}/ladder\n"}, f"{room}/cases")
    said = tried("ladder_bench", ["std", *CRATES, "bytes"], folder, f"{room}/cases", crates, heap)
    return "" if "case=copy run=ended status=0" in said else said[-2000:]


def ran(words):
    """The exit status of a program, and what it writes."""
    with turn(TRY):
        it = subprocess.run(words, **QUIET)
    return it.returncode, it.stdout


def module_of(call):
    """The module of the program that makes a call. It has the call's name, or that without the type."""
    names, files = (f'"{call}"', f'"::{call.partition("::")[2]}"'), [*Path(ROOT, "bench/ladder/ours").glob("*.rt.txt")]
    found = [it for name in names for it in files if name in it.read_text("utf-8")]
    return found[0].name.partition(".")[0] if found else ""


@functools.cache
def few_rungs(module, crates=f"{ROOT}/crates"):
    """The rungs of each call of a module on a few cases."""
    return rungs(FEW, crates, module)[0]


def changed_rungs(call, crates):
    """The rungs of a call that differ over the crates in a folder: in the value, in what is asked for, or in what is
    held at the end. There are none if the program doesn't end well."""
    found, right = few_rungs(module_of(call), crates), few_rungs(module_of(call))
    return [it for it in found[call] if it not in right[call] and "the program" not in found]


def rung_of(n, k, request, word, requests, asked, held):
    """A rung of a call, of which this request was refused, if it made as many. Then it can't be right."""
    was_refused = 0 < request <= requests
    fault = f"{word}, with a refused request" if was_refused else word
    fault = "" if (word == "right") != was_refused else fault
    return Rung(n, k, requests, asked, f"{said(held, 'block')} held at the end" if held else fault)
