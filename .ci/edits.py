"""Wrong bodies, whose form CONTRIBUTING.md has: how an edit is read and applied, and what a check says of it."""
import re
from collections import namedtuple
from pathlib import Path

from kit import CRATES, EXAMPLES, FOLDERS, ROOT, files_of, text_of

# what is said of a goal that stays open. Else a term of a proof file no longer fits, as it also may for a right body
OPEN = re.compile(r"src/|\./proofs/.*(does not follow|allow values at which|(found )?no proof\b)")
BY_PROOF = "by the proof file alone"
UNREAD = "the prover can't read the copy"
# a function of a file, which may have no body; one of at most one line, beside one that takes `self` apart; a macro;
# the head of an impl or a trait; in it the trait and the type; and where a type or a trait is defined
START = r"(?:pub(?:\([^)]*\))? )?(?:const |unsafe |final )*fn "
NO_BODY, BODY = rf"[^\n]*{{}}|(?:(?!{{\n|^ *{START}).)*?;", rf"(?:(?!^ *{START}).)*?^\1(?:{{}}|}})"
FUNCTION = re.compile(rf"^( *){START}(\w+)({NO_BODY}|{BODY})\n", re.M | re.S)
ONE_LINE = re.compile(r"(?:\{\n(?: *let \w+ \{.*\} = self;\n)?.*\n *\}|\{\}|;)\n\Z")
MACRO = re.compile(r"^macro_rules! (\w+) \{.*?^\}", re.M | re.S)
HEAD = re.compile(r"^(?:(?:unsafe )?impl\b|(?:pub(?:\([^)]*\))? )?trait\b)[^{]*", re.M)
OWNER = re.compile(r".*?(?:trait|impl(?:<(?:->|[^<>]|<[^<>]*>)*>)?) (?:(.*) for )?(.*?)(?:: |\s+where\b|\s*\Z)", re.S)
TYPE = re.compile(r"^(?:pub(?:\([^)]*\))? )?(?:struct|enum|trait) (\w+)", re.M)
# a program's files are texts by their paths, and its folder is that of its edits; a pair is an old text and a new one
Program = namedtuple("Program", "name uses files folder functions")
Edit = namedtuple("Edit", "program name file functions test ladder breaks is_right pairs")


def program_of(name):
    """A crate or an example."""
    files = files_of(FOLDERS[name])
    return Program(name, (CRATES | EXAMPLES)[name], files, FOLDERS[name], [*functions_of(files)])


def edits_of(program, part=""):
    """The wrong bodies of a program, or those in one folder of them."""
    paths = sorted(Path(ROOT, program.folder, "wrong-bodies", part).rglob("*.edit"))
    return [edit_of(program, it.stem, it.read_text("utf-8")) for it in paths]


def edit_of(program, name, text):
    said = lambda word: "".join(re.findall(rf"^{word}: (.*)$", text, re.M))
    file, caught = said("file"), (said("# test"), said("# ladder"), said("# breaks"), bool(said("# right")))
    pairs = re.findall(r"^old: (.+)\nnew: ?(.*)$", text, re.M)
    return Edit(program, f"{program.name}/{name}", file, changed_by(program, file, pairs), *caught, pairs)


def files_with(edits):
    """The files of a program with some of its edits, or nothing where an old text isn't in its file once."""
    files = dict(edits[0].program.files)
    for path, old, new in ((it.file, *pair) for it in edits for pair in it.pairs):
        if files.get(path, "").count(old) != 1:
            return None
        files[path] = files[path].replace(old, new)
    return files


def test_of(edit):
    """The file that has the test for an edit, in the tests of its crate, and its text, or none if it isn't there."""
    path = f"src/{'/'.join(edit.test.split('::')[:-1])}.rt"
    return path, files_of(f"{edit.program.folder}_tests").get(path, "")


def name_of(function, head, path, homes):
    """The prover's name for a function, by the head of its impl or trait, its file, and the files of types. The owner
    in `impl<'a> From<&'a [u8]> for Text<Bytes>` of src/a.rt is `a::TextBytesFromRefSliceU8`, in `impl Text<Bytes>`
    `a::Text+Bytes`, and in `impl<S> Text<S>` `b::Text`, if that type is in src/b.rt."""
    trait, own = OWNER.match(head).groups("") if head else ("", "")
    words = re.findall(r"&|\[|(?<!')\b\w\w+", own + " " + re.sub(r"^(\w+::)*", "", trait))
    owner = ("" if trait else "+").join({"&": "Ref", "[": "Slice"}.get(it, it[0].upper() + it[1:]) for it in words)
    home = re.sub(r"^src/((lib|main)\.rt)?|\.rt$", "", path if trait else homes.get(owner, path))
    return "::".join(filter(None, (*home.split("/"), owner, function)))


def is_public(function, head):
    """Whether callers see a function, by its first line and by the head of its impl or trait."""
    return function.lstrip().startswith("pub ") or " for " in head or head.startswith("pub trait")


def functions_of(files):
    """The functions of a program: the path of each, where it is there, the head of its impl or trait, and its name."""
    homes = {it: path for path, text in files.items() for it in TYPE.findall(text)}
    for path, text in files.items():
        for it in FUNCTION.finditer(text) if path.startswith("src/") else ():
            head = "".join(HEAD.findall(text[: it.start()])[-1:]) if it[1] else ""
            yield path, it, head, name_of(it[2], head, path, homes)


def changed_by(program, path, pairs):
    """The functions that an edit changes, or of a macro those that use it. Outside of both it puts a function there."""
    found = set()
    for old, new in pairs:
        macros = [f"{it[1]}!" for it in MACRO.finditer(program.files.get(path, "")) if old in it[0]]
        has_it = lambda at, text: (at == path and old in text) or any(it in text for it in macros)
        changed = {name for at, it, _, name in program.functions if has_it(at, it[0])}
        found |= changed or {name_of(it, "", path, {}) for it in re.findall(r"\bfn (\w+)", new)}
    return sorted(found)


def fault_of(edit):
    """What is wrong with an edit, as far as its text shows, or nothing."""
    if not files_with([edit]) or not edit.pairs or any(old == new for old, new in edit.pairs):
        return f"an old text isn't in {edit.file} once, or is the new one"
    if edit.test:
        return "" if re.search(rf"\bfn {edit.test.split('::')[-1]}\b", test_of(edit)[1]) else "there is no such test"
    if edit.ladder:
        return "" if edit.ladder in re.split(r",?\n|, ", text_of("bench/ladder/table.txt")) else "there is no such rung"
    return "" if edit.functions else "it changes no function"


def unchanged(program):
    """The public functions of a crate, of more than one line, in which no wrong body is, nor in a private function that
    they call."""
    wrong = {name for it in edits_of(program) if not it.is_right for name in it.functions}
    private = {it[2] for _, it, head, name in program.functions if name in wrong and not is_public(it[0], head)}
    for _, it, head, name in program.functions:
        is_bare = name not in wrong and is_public(it[0], head) and not {*re.findall(r"\b(\w+)\(", it[3])} & private
        if is_bare and not ONE_LINE.search(it[0]):
            yield f"{program.name}/{name}"


def goals_in(said):
    """For each function that a check names, its own goals that are refused. A caller that waits for it has none."""
    found, notes = {}, []
    errors = [" ".join(it.split()) for it in re.findall(r"^\./proofs/\S+: error: .*(?:\n  .*)?", said, re.M)]
    lines = re.findall(r"^(?:note: (\S+\.rt:\d+:\d+: .*)|(?:fn|impl) \w+::(\S+): (.*))", said, re.M)
    for note, name, verdict in lines:
        own = [it for it in errors if it.startswith(f"./proofs/{name.replace('::', '/')}/")] + notes
        waits = re.search(r"; it waits for|, which (is not proved|are not proved|has no proof)", verdict)
        if name:
            found[name] = [] if verdict.startswith("proved") else own or ([] if waits else [verdict])
        notes = [] if name else [*notes, note]
    return found


def judged(edit, said):
    """What a check says of an edit: "refused", and at which open goal of a function that it changes, or why not."""
    goals = goals_in(said)
    if not re.search(r"^(logic|only)=", said, re.M):
        errors = [it for it in said.split("\n") if "error" in it] or [said[-200:]]
        return f"{UNREAD}: {errors[0][:200]}"
    if lost := [it for it in edit.functions if it not in goals]:
        return f"the prover sees no function {lost[0]}"
    closures = [it for it in goals if any(it.replace("fn::", "", 1).startswith(f"{of}::") for of in edit.functions)]
    refused = [(name, goal) for name in (*edit.functions, *closures) for goal in goals[name]]
    if not refused:
        return "it is proved"
    name, goal = next((it for it in refused if OPEN.match(it[1])), refused[0])
    how = "refused" if OPEN.match(goal) else f"refused {BY_PROOF}" if edit.breaks else BY_PROOF
    return f"{how}: {name}: {goal.removeprefix('./proofs/')[:200]}"
