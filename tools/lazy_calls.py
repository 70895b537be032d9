#!/usr/bin/env python3
"""Calls that a lazy body meets: one that always gives up, by `return Err(..)` for want of memory or by `return None`. It meets a contract that only says
what holds if a call goes well: each `ensures` begins, after premises at most, with `IfOk`, `OnOk` or `IfSome`. And it meets that of a call which returns a
`Result` or an `Option` and has no `ensures`. So that none passes unseen, tools/lazy_calls.txt has a line for each: a stored run whose outcome would change.

Counted are each `pub fn` of a library, and each function that a library's `pub trait` declares with such an `ensures`: that binds its `impl`s. Left out are
laws_stores, since its calls are laws, which no program calls, and the libraries of stored runs, `cases` and `play_`, without which no case is played.

Usage: lazy_calls.py                  compares the list with the table
       lazy_calls.py --list           prints the list
       lazy_calls.py --play [NAME..]  plays the case of each line, or of those that have NAME in the call's path, as it is and with a lazy body: only then
                                      must something else come of it. A body is lazy while its own case is played, and no other is: so one `rt try` for each
                                      program plays all of its lines. They take two to five minutes each, two at a time, or as PLAYS_AT_ONCE says. What only
                                      a tool shows isn't played"""
import collections
import concurrent.futures
import glob
import os
import re
import shutil
import subprocess
import sys
import tempfile

TOP = os.path.dirname(os.path.dirname(os.path.abspath(__file__)))
TABLE = "tools/lazy_calls.txt"
LEFT_OUT = re.compile(r"laws_stores|cases|play_\w+")
# In place of a program: what shows a call is a tool of after_gate.sh, or nothing yet.
NO_PROGRAMS = ("tools", "-")
PARTS = ("src", "specs", "proofs", "data", "stdin", "args")
# A function's signature up to its name, and what the blocks in which it stands begin with.
FUNCTION = re.compile(r"(?m)^( *)(pub )?(?:pub\([a-z ]+\) )?(?:const )?fn (\w+)")
BLOCK = re.compile(r"(?m)^(pub )?(impl|trait)\b([^{]*?) ?\{$")
GIVES_UP = re.compile(r"(IfOk|OnOk|IfSome)\b")
# What a lazy body gives, by the type of the error; for another type its variant Memory.
ERRORS = {
    "AllocError": "std::alloc::AllocError",
    "Unavailable": "Unavailable",
    "io::Error": "std::io::Error::from(std::io::ErrorKind::OutOfMemory)",
    "Error": "sqlite::Error::SqliteFailure(sqlite::ErrorCode::OutOfMemory)",
    "Failure": "Failure::from(hall_report::Fault::Memory)",
    "Usage": "Usage::of(clap::Error::from(std::alloc::AllocError))",
    "LineFault": "LineFault::Wrong(command_rows::Wrong::Memory)",
    "sql_file::FileFault": "FileFault::Unavailable",
}
# A crate that the copy has beside the others: which call is lazy now. The number is kept as the mask of new files: no case makes one.
SWITCH = """//! Which call is lazy now.
#![tactic(auto)]

unsafe extern "C" {
    safe fn umask(mask: u32) -> u32;
}

/// This one is, of 511 at most; 0 is none.
pub fn set(number: u32) {
    let _ = umask(number);
}

/// Whether it is this one.
pub fn is(number: u32) -> bool {
    let now = umask(0);
    let _ = umask(now);
    now == number
}
"""
# What becomes of other files there. A program plays the file `case`, whose first line has its name, and the number before a case's name says which call is
# lazy in it.
EDITS = [
    (
        "crates/cases/src/lines.rt",
        "        match self.lines.get(at) {\n            Some(Line::Act",
        """        let (number, _) = self.case(at).split_once(": ").unwrap_or(("0", ""));
        lazy_switch::set(number.parse::<u32>().unwrap_or(0));
        match self.lines.get(at) {\n            Some(Line::Act""",
    ),
    (
        "crates/cases/src/playing.rt",
        "    Ok(env::args(rt)?.skip(1).collect(rt.alloc())?)",
        """    let text = fs::read_to_string(rt, "case")?;
    let name = text.lines().next().and_then(|line| line.strip_prefix("# ")).unwrap_or("");
    let alloc = rt.alloc();
    let mut names = Vec::new(alloc);
    names.push(format!(in alloc; "{name}")?)?;
    Ok(names)""",
    ),
    ("crates/cases/src/playing.rt", "fs::read_to_string(rt, name)?", 'fs::read_to_string(rt, "case")?'),
    ("crates/cases/src/playing.rt", "use std::{env, fs};", "use std::fs;"),
    ("crates/command_rows/src/usage.rt", "pub(crate) fn of(", "pub fn of("),
]

# A call: its path, what it gives up with, whether it has an `ensures`, and the files and places of its bodies.
Call = collections.namedtuple("Call", "path gives promises bodies")
# A function: the block that it stands in, its type as it stands, what each `ensures` says after its premises, and the place in the file where its body begins.
Function = collections.namedtuple("Function", "crate module block name is_pub gives promises file body")
Row = collections.namedtuple("Row", "call program file case")


def text_of(path):
    """The text of a file of the repository."""
    with open(f"{TOP}/{path}", encoding="utf-8") as it:
        return it.read()


def end_of(text, at, closing):
    """The place after the bracket that closes the one at a place."""
    depth, opening = 0, text[at]
    while True:
        depth += (text[at] == opening) - (text[at] == closing and text[at - 1] != "-")
        at += 1
        if not depth:
            return at


def last_part(formula):
    """What a formula says after its premises: what stands after its last arrow that is in no brackets."""
    depth, start = 0, 0
    for at, sign in enumerate(formula):
        depth += (sign in "([⟦{") - (sign in ")]⟧}")
        if sign == "→" and not depth:
            start = at + 1
    return formula[start:].strip()


def contract(text, at):
    """Of a function whose name ends at a place: what it returns, its `ensures`, and where its body begins, if it has one."""
    if text[at] == "<":
        at = end_of(text, at, ">")
    at = end_of(text, at, ")")
    ends = re.compile(r"\s+(?:where|requires|ensures)\b|\s*\{|;\n").search(text, at)
    gives, at = text[at : ends.start()].replace("->", "").strip(), ends.start()
    if ends[0].strip() == "where":
        at = re.compile(r"\s+(?:requires|ensures)\b|\s*\{\n").search(text, at).start()
    promises = []
    while clause := re.compile(r"\s+(requires|ensures)\b[^{;]*").match(text, at):
        at = end_of(text, clause.end(), "}")
        if clause[1] == "ensures":
            promises.append(last_part(text[clause.end() + 1 : at - 1]))
    body = re.compile(r"\s*\{").match(text, at)
    return " ".join(gives.split()), promises, body and body.end()


def type_of(words):
    """The name of the type that an `impl` is for, or the trait's own, and the trait's, if it is one's."""
    words = words.strip()
    if words.startswith("<"):
        words = words[end_of(words, 0, ">") :]
    trait, found, its_type = words.partition(" for ")
    name = re.match(r"\W*(?:\w+::)*(\w*)", its_type if found else trait)[1]
    return name, re.match(r"\s*(?:\w+::)*(\w+)", trait)[1] if found else None


def functions_of(crate, file):
    """The functions of a file, each with the block that it stands in: its word, the type's name, and the trait's."""
    text = re.sub(r"(?m)^ *//.*$", lambda it: " " * len(it[0]), text_of(file))
    blocks = [(it.start(), text.index("\n}", it.start()), it) for it in BLOCK.finditer(text)]
    module = re.sub(r"/mod$", "", file.split("/src/")[1].removesuffix(".rt")).replace("/", "::")
    for it in FUNCTION.finditer(text):
        around = next((block for start, end, block in blocks if start < it.start() < end), None)
        block = (around[2], *type_of(around[3]), bool(around[1])) if around else ("", None, None, False)
        gives, promises, body = contract(text, it.end())
        yield Function(crate, module, block, it[3], bool(it[2]), gives, promises, file, body)


def libraries():
    """The crates that are libraries and whose calls count."""
    names = sorted(file.split("/")[1] for file in glob.glob("crates/*/src/lib.rt", root_dir=TOP))
    return [name for name in names if not LEFT_OUT.fullmatch(name)]


def sources(crate):
    """The files of a crate's code."""
    return sorted(glob.glob(f"crates/{crate}/src/**/*.rt", root_dir=TOP, recursive=True))


def given_up(crate, gives, names):
    """What a lazy body gives where so much is returned: `Err(..)` or `None`, or nothing where it is neither a Result nor an Option."""
    head = re.match(r"[\w:]+", gives)
    head = head[0] if head else ""
    gives = names.get((crate, head), gives)
    if gives.startswith("Option<"):
        return "None"
    if gives.startswith("io::Result<"):
        return f"Err({ERRORS['io::Error']})"
    if not gives.startswith("Result<"):
        return None
    error = last_argument(gives)
    return f"Err({ERRORS.get(f'{crate}::{error}') or ERRORS.get(error) or f'{error}::Memory'})"


def last_argument(words):
    """The last argument of a type, without its own arguments."""
    depth, start = 0, 0
    for at, sign in enumerate(words):
        depth += (sign in "<([") - (sign in ">)]")
        if sign == "," and depth == 1:
            start = at + 1
    return re.match(r"\s*([\w:]+)", words[start:])[1]


def other_names():
    """What type names stand for, each with its crate, where that is a Result."""
    names = {}
    for crate in libraries():
        for file in sources(crate):
            for name, meant in re.findall(r"(?m)^(?:pub(?:\(crate\))? )?type (\w+)(?:<\w+>)? = (Result<.*>);", text_of(file)):
                names[crate, name] = meant
    return names


def calls():
    """The list of calls that a lazy body meets."""
    functions = [it for crate in libraries() for file in sources(crate) for it in functions_of(crate, file)]
    names, found = other_names(), []
    for it in functions:
        word, its_type, _, is_pub_trait = it.block
        is_declared = word == "trait" and is_pub_trait
        gives = given_up(it.crate, it.gives, names)
        is_met = all(GIVES_UP.match(said) for said in it.promises) and (it.promises or not is_declared)
        if not (gives and is_met and (it.is_pub or is_declared)):
            continue
        bodies = [other for other in functions if other.block[2] == its_type and other.name == it.name] if is_declared else [it]
        path = "::".join(part for part in (it.crate, it.module, its_type, it.name) if part)
        found.append(Call(path, gives, bool(it.promises), [(body.file, body.body) for body in bodies if body.body]))
    return sorted(found)


def rows_of(text):
    """The lines of the table."""
    words = [line.split(None, 3) for line in text.splitlines() if line and not line.startswith("#")]
    return [Row(*its, *[""] * (4 - len(its))) for its in words]


def cases_of(row):
    """The texts of the cases of a line's file, each with its name at its head."""
    return re.split(r"(?m)^(?=== )", text_of(f"crates/{row.program}/data/{row.file}"))[1:]


def is_begun(case):
    """Whether a case needs none of those before it: whether its first act is `new`."""
    act = re.search(r"(?m)^(?!=|#|  ).+", case)
    return bool(act and re.match(r"new\b", act[0]))


def name_of(row):
    """The name by which a file is played: play_desk plays halls in one way then, and not in ten."""
    return re.sub(r"^(\w+)\.cases$", r"\1.once.cases", row.file) if row.program == "play_desk" else row.file


def played(row, number):
    """What is played: the case, with the call's number before its name, and before it those that it goes on from."""
    cases = cases_of(row)
    at = next(at for at, case in enumerate(cases) if case.startswith(f"== {row.case}\n"))
    first = next((it for it in range(at, -1, -1) if is_begun(cases[it])), 0)
    return f"# {name_of(row)}\n" + "".join(cases[first:at]) + f"== {number}: " + cases[at].removeprefix("== ")


def lazy_texts(found):
    """The files that have a call's body, in which it is lazy while its number is set."""
    added = collections.defaultdict(list)
    for number, call in enumerate(found, 1):
        for file, at in call.bodies:
            added[file].append((at, f" if lazy_switch::is({number}) {{ return {call.gives}; }}"))
    texts = {}
    for file, its in added.items():
        text = text_of(file)
        for at, words in sorted(its, reverse=True):
            text = text[:at] + words + text[at:]
        texts[file] = text
    return texts


def copy_to(folder, found):
    """Makes a repository of the crates without what was made of them, where each call is lazy while its number is set."""
    os.mkdir(f"{folder}/.git")
    shutil.copyfile(f"{TOP}/HANDLES", f"{folder}/HANDLES")
    for part in (it for name in PARTS for it in glob.glob(f"crates/*/{name}", root_dir=TOP)):
        os.makedirs(os.path.dirname(f"{folder}/{part}"), exist_ok=True)
        shutil.copytree(f"{TOP}/{part}", f"{folder}/{part}") if os.path.isdir(f"{TOP}/{part}") else shutil.copyfile(f"{TOP}/{part}", f"{folder}/{part}")
    texts = lazy_texts(found)
    for file, old, new in EDITS:
        text = texts.get(file) or text_of(file)
        if text.count(old) != 1:
            raise ValueError(f"{file} has {text.count(old)} times: {old}")
        texts[file] = text.replace(old, new)
    # hallboot_words gives an error of clap
    lines = re.sub(r"(?m)^(\w+:.*)$", r"\1 lazy_switch", text_of("crates.txt")).replace("hallboot_words: ", "hallboot_words: clap ")
    texts |= {"crates.txt": f"lazy_switch:\n{lines}", "crates/lazy_switch/src/lib.rt": SWITCH}
    os.makedirs(f"{folder}/crates/lazy_switch/src")
    for file, text in texts.items():
        with open(f"{folder}/{file}", "w", encoding="utf-8") as it:
            it.write(text)


def plays_of(rows, numbers):
    """What a program plays, by the name of a run: the case of each line, while its call is lazy, and each of these cases while none is."""
    runs, plain = {}, {}
    for row in rows:
        number = numbers[row.call]
        runs[f"{number}.lazy"] = played(row, number)
        plain.setdefault((row.file, row.case), number)
    for row in rows:
        runs[f"{plain[row.file, row.case]}.plain"] = played(row, 0)
    return runs, {row.call: f"{plain[row.file, row.case]}.plain" for row in rows}


def outcomes_of(program, runs, found):
    """What comes of a program's runs: what each prints, or the status that it ends with, if that isn't 0; and all that `rt try` says."""
    with tempfile.TemporaryDirectory(prefix="lazy-calls-") as folder:
        copy_to(folder, found)
        os.mkdir(f"{folder}/runs")
        for name, text in runs.items():
            with open(f"{folder}/runs/{name}", "w", encoding="utf-8") as it:
                it.write(text)
        data = [it for it in sorted(glob.glob(f"{TOP}/crates/{program}/data/*")) if not it.endswith(".cases")]
        data = [word for it in data for word in ("--data", f"{os.path.basename(it)}={it}")]
        # one step: the interpreter gets no further than to the read of a file
        words = ["rt", "try", "--steps", "1", "--seconds", "900", *data, "--cases", f"{folder}/runs"]
        how = {"stdout": subprocess.PIPE, "stderr": subprocess.PIPE, "text": True, "errors": "replace"}
        ran = subprocess.run(words, cwd=f"{folder}/crates/{program}", **how)
    ended = dict(re.findall(r"(?m)^case=(\S+) (.*)", ran.stderr))
    printed = dict(re.findall(r"(?ms)^== (\d+\.(?:lazy|plain))\n(.*?)(?=^== \d+\.(?:lazy|plain)\n|\Z)", ran.stdout))
    outcomes = {name: printed.get(name, "") if said.startswith("run=ended status=0 ") else said for name, said in ended.items()}
    return outcomes, f"{ran.stdout[-2000:]}{ran.stderr[-2000:]}"


def has_shown(row, number, lazy, plain):
    """Whether something else comes of the case with the lazy body, and what is wanted without."""
    differs = re.compile(rf"(?m)^\W*{re.escape(name_of(row))}, line \d+, {number}: {re.escape(row.case)}$")
    is_as_wanted = plain is not None and not re.search(r", line \d+, |\Arun=", plain)
    return is_as_wanted and (lazy.startswith("run=") or bool(differs.search(lazy)))


def tried(program, rows, found, numbers):
    """Plays the cases of a program's lines, says what came of each, and returns whether each was shown."""
    runs, plain = plays_of(rows, numbers)
    outcomes, said = outcomes_of(program, runs, found)
    if not outcomes:
        print(said)
    shown = []
    for row in rows:
        lazy = outcomes.get(f"{numbers[row.call]}.lazy", "")
        shown.append(has_shown(row, numbers[row.call], lazy, outcomes.get(plain[row.call])))
        print(f"{'' if shown[-1] else 'BAD: not '}shown: {row.call}  {program} {row.file}  {row.case}", flush=True)
    return shown


def play(names):
    """Plays the cases of the table's lines, and says how many were shown."""
    found = calls()
    numbers = {call.path: number for number, call in enumerate(found, 1)}
    rows = [row for row in rows_of(text_of(TABLE)) if row.call in numbers and (not names or any(name in row.call for name in names))]
    is_played = [row.program not in NO_PROGRAMS for row in rows]
    programs = collections.defaultdict(list)
    for row in (row for row, its in zip(rows, is_played) if its):
        programs[row.program].append(row)
    with concurrent.futures.ThreadPoolExecutor(int(os.environ.get("PLAYS_AT_ONCE", "2"))) as at_once:
        shown = [it for its in at_once.map(lambda it: tried(*it, found, numbers), programs.items()) for it in its]
    failed = shown.count(False) + (not shown)
    print(f"lazy_calls: {max(len(shown), 1)} checks, {failed} failed ({is_played.count(False)} calls of {len(rows)} not played)")
    return 1 if failed else 0


def fault_of(row, tools):
    """What is wrong with a line's program, file or case, if anything is."""
    if row.program in NO_PROGRAMS:
        return f"after_gate.sh runs no tool {row.file}" if row.program == "tools" and row.file not in tools else None
    args, file = f"crates/{row.program}/args", f"crates/{row.program}/data/{row.file}"
    if not (os.path.isfile(f"{TOP}/{args}") and os.path.isfile(f"{TOP}/{file}") and row.file in text_of(args).split()):
        return f"no program {row.program} that plays a file {row.file}"
    count = [case.partition("\n")[0] for case in cases_of(row)].count(f"== {row.case}")
    return None if count == 1 else f'{count} cases "{row.case}" in {row.file} of {row.program}'


def check():
    """Compares the list with the table."""
    found, rows = calls(), rows_of(text_of(TABLE))
    tools = re.search(r"(?s)tools=\((.*?)\n\)", text_of("tools/after_gate.sh"))[1].replace("'", " ").split()
    paths, lines = {call.path for call in found}, collections.Counter(row.call for row in rows)
    faults = [f"{call.path}: {lines[call.path]} lines" for call in found if lines[call.path] != 1]
    for row in rows:
        fault = fault_of(row, tools) if row.call in paths else "no call that a lazy body meets"
        faults += [f"{row.call}: {fault}"] if fault else []
    for fault in faults:
        print(f"BAD: {TABLE}: {fault}", file=sys.stderr)
    if_well = [call.promises for call in found].count(True)
    by_tools, by_nothing = ([row.program for row in rows].count(it) for it in NO_PROGRAMS)
    what = f"{if_well} say only what holds if they go well, {len(found) - if_well} nothing; {by_tools} shown by tools, {by_nothing} by nothing"
    print(f"lazy_calls: {len(found)} checks, {len(faults)} failed ({what})")
    return 1 if faults else 0


def main(words):
    if words == ["--list"]:
        for call in calls():
            print(call.path)
        return 0
    if words[:1] == ["--play"]:
        return play(words[1:])
    if words:
        sys.exit(__doc__)
    return check()


if __name__ == "__main__":
    sys.exit(main(sys.argv[1:]))
