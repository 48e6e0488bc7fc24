"""The sources: few functions of the program say of their own accord that memory is wanting, and
tools/house.py counts what it has to.

No contract says that memory suffices, so a function that says it is wanting would be proved
whatever it does. All other functions pass on what they were told.
"""
import pathlib
import re
import sys
from typing import Iterator

import contracts
import gate_tables
import measuring
from harness import ROOT, Ended, Harness, Outcome, compared, ended_as, side_by_side

sys.path.append(str(ROOT / "tools"))
from measures.rattle import Function, functions, type_of  # noqa: E402
from measures.workspace import Workspace  # noqa: E402

# Crates of tests are no part of the program.
OF_TESTS = re.compile(r"crates/(?:fleet_)?trials/")
NAMES = re.compile(r"\b(?:OutOfMemory|AllocError)\b(?!::from)")
STRINGS_AND_COMMENTS = re.compile(r'b?"(?:[^"\\]|\\.)*"|//[^\n]*')
# Under another name they would not be found.
RENAMED = re.compile(r"^ *(?:pub )?use [^;]*\b(?:OutOfMemory|AllocError) as ", re.MULTILINE)
# Where names stand that are compared, and not made.
PATTERNS = (
    re.compile(r"\bmatches!\([^;]*?\)(?=[\s;,)]|$)"),
    re.compile(r"\blet [^=;]*="),
    re.compile(r"^[^=\n]*(?:=(?!>)[^=\n]*)*=>", re.MULTILINE),
    re.compile(r"^ *\| .*$", re.MULTILINE),
)
# A contract forces the words of a fault, and such a `from` has nothing but a want to name.
FORCED = re.compile(r"impl From<(?:AllocError|OutOfMemory)> for .*from$|impl.*words$")

# Why a function may say it.
NAMED_ANEW = "passes on a want that it was told of by the name that another type has for it"
PASSED_ON = "passes on a want that it was told of among other cases"
NO_TEXT = "has no memory for the text of its answer"
MADE = {
    "agent/replies.rt: reply_to_delivery": PASSED_ON,
    "agent_commands/plan_file.rt: blame_of": NAMED_ANEW,
    "check_commands/verdicts.rt: accept": NAMED_ANEW,
    "check_commands/verdicts.rt: list": NAMED_ANEW,
    "check_commands/verdicts.rt: reject": NO_TEXT,
    "check_commands/verdicts.rt: tell": NO_TEXT,
    "checker/checker.rt: check": "gives the plan back beside the want",
    "command_line/command_line.rt: LineFault::bad_command": NO_TEXT,
    "command_line/command_line.rt: refused": "has no memory for clap's answer, or clap had none",
    "command_line/words.rt: no_number": NO_TEXT,
    "continuing/cutting.rt: first_acts": NAMED_ANEW,
    "controller/controller.rt: Controller::tell": NAMED_ANEW,
    "controller/controller.rt: dropped_for": PASSED_ON,
    "executor/runner.rt: Runner::over": "was given an agent back that there was no room for",
    "executor/runner.rt: Runner::tell": PASSED_ON,
    "executor/runs.rt: run_with": "was given a reply back that there was no room for",
    "executor/said.rt: Said::keep_told": "takes back what it had taken, and then says why",
    "fleet_commands/anew_command.rt: fault_of": NAMED_ANEW,
    "fleet_commands/found_tapes.rt: unless_refused": NAMED_ANEW,
    "fleet_commands/handover_fault.rt: HandoverFault::from": NAMED_ANEW,
    "fleet_commands/status_command.rt: tell": NO_TEXT,
    "mapf/main.rt: fault_of": "tells why the system didn't give the words of the command line",
    "mapf_cmd/unperformed.rt: refuse": "tells that there was no memory for a command line",
    "plan_commands/continues_command.rt: tell": NO_TEXT,
    "plan_commands/cut_command.rt: read_cut": NAMED_ANEW,
    "plan_commands/path_command.rt: show": "was given an answer that there was no room for",
    "plan_text/plan.rt: PushFault::from": NAMED_ANEW,
    "plan_text/plan_reader.rt: Progress::add_line": PASSED_ON,
    "planned/reading.rt: read_at_hand": NAMED_ANEW,
    "proof_check/progress.rt: unjudged": NAMED_ANEW,
    "proof_commands/optimal_command.rt: tell": NO_TEXT,
    "robot/answering.rt: answer_hear": PASSED_ON,
    "robot/answering.rt: answer_tell": PASSED_ON,
    "robot/file_tape.rt: FileTapeFault::from": NAMED_ANEW,
    "runner/completing.rt: put_ending": PASSED_ON,
    "text_commands/judge.rt: row_fault": PASSED_ON,
    "text_commands/row_command.rt: propose": PASSED_ON,
    "text_commands/rows_command.rt: judge_on": NAMED_ANEW,
    "text_io/failure.rt: Failure::name": NAMED_ANEW,
}
# In how many places a function says it, where that is more than one.
PLACES = {"command_line/command_line.rt: refused": 2, "command_line/words.rt: no_number": 2}

# Lines of a body, each with how many such values it makes.
FORMS = [
    ("Err(OutOfMemory)", 1),
    ("return Err(AllocError);", 1),
    (".map_err(|_| MapFault::OutOfMemory)?;", 1),
    (".ok_or(AllocError)?;", 1),
    ("Err(_) => LineFault::OutOfMemory,", 1),
    ("ErrorKind::OutOfMemory => LineFault::OutOfMemory,", 1),
    ("Err(_) if count == 3 => return Err(OutOfMemory),", 1),
    ("fault: PlanFault::OutOfMemory,", 1),
    ("io::Error::from(ErrorKind::OutOfMemory)", 1),
    ("let fault = MapFault::OutOfMemory;", 1),
    ("MapFault::ReadFailed | MapFault::OutOfMemory => Status::Failure,", 0),
    ("if let Err(OutOfMemory) = called() {", 0),
    ("matches!(fault, MapFault::OutOfMemory)", 0),
    ("rows.push(row).map_err(AllocError::from)?;", 0),
    ('FaultWords::new("OutOfMemory", &[])', 0),
    ("// OutOfMemory", 0),
    ("        | FaultName::OutOfMemory", 0),
]


def places(body: str) -> int:
    """In how many places a body makes a value that says so."""
    text = STRINGS_AND_COMMENTS.sub("", body)
    for pattern in PATTERNS:
        text = pattern.sub("", text)
    return len(NAMES.findall(text))


def making() -> dict[str, int]:
    """In how many places each function of the program says of its own accord that memory is
    wanting, of those that do."""
    found: dict[str, int] = {}
    workspace = Workspace(ROOT)
    for path in workspace.of_crates("src"):
        if not OF_TESTS.match(path):
            _, crate, _, file = path.split("/", 3)
            text = workspace.text(path)
            told = [(named(it), places(it.body)) for it in functions(text) if not is_forced(it)]
            for name, count in [*told, ("use .. as ..", len(RENAMED.findall(text)))]:
                if count:
                    found[f"{crate}/{file}: {name}"] = count
    return found


def named(it: Function) -> str:
    return f"{type_of(it.block)}::{it.contract.name}" if it.block else it.contract.name


def is_forced(it: Function) -> bool:
    return bool(FORCED.match(f"{it.block} {it.contract.name}"))


HOUSE = pathlib.Path("tools") / "house.py"
MEASURE = re.compile(r"^(\S+) +(\d+) of at most +(\d+)  ")
LONG = "".join(f"    step({number});\n" for number in range(41))
# A workspace in which each measure has something to count, beside what it must not count.
UNTIDY = {
    "crates/one/specs/Cells.antt": """-- Cells.
use Rattle.std.specs.Prelude.{ℕ, Bool, true, false}

abbrev pub is_free : ℕ → Bool
is_free zero = true
is_free (suc n) = false

-- two lines in all
pub record Pair : Type 0 where
  pub first : ℕ

pub data Class : Type 0 where
  land sea : Class
""",
    "crates/two/specs/Rows.antt": """-- Rows, which have a `Class`.
pub use Rattle.one.specs.Cells.{Pair}
use Rattle.one.specs.Cells.{is_free}

abbrev pub IsRow
    : ℕ → Type 0
IsRow n = IsTrue (is_free n)

unfoldable pub unreached : ℕ
unreached = 1
  where
    Pair : ℕ
""",
    "crates/two/specs/More.antt": f"""pub record is_free (n : ℕ) : Type 0 where
  pub IsRow : ℕ
-- {'x' * 97}
-- {'x' * 98}
-- {'x' * 98} "text"
use Rattle.one.{'x' * 98}
""",
    "crates/two/specs/Lib.antt": "pub mod Rows\npub mod More\n",
    "crates/two/proofs/Rows.antt": """use Rattle.std.proofs.Common.{refl}
use Rattle.one.specs.Cells.{is_free}
use Rattle.one.proofs.Cells.{free, land}
use Rattle.two.proofs.More.{more}
"""
    f"-- {'x' * 197}\n-- {'x' * 198}\n",
    "crates/two/src/lib.rt": f"""ghost use Rattle.one.proofs.laws.one as law;
ghost use Rattle.two.specs.Rows.{{IsRow}};

/// Whether it is a row.
pub fn is_row<F: Fn(u8, u8) -> bool>(
    first: u8,
    (second, third): (u8, u8),
    fourth: Pair<u8, u8>,
    fifth: F,
) -> bool
    ensures row {{ IsRow first }}
{{
{LONG.replace("    step(0);", "    // one is a comment", 1)}}}

impl<'a> Row<'a> {{
    fn put(&'a mut self, a: u8, b: u8, c: u8, d: u8, e: u8) {{}}

    fn put_all<A, B, C>(a: A, b: B, c: C, d: &[u8], e: u8, f: [u8; 2]) -> u8
        requires {{ IsRow a }}
    {{
{LONG.replace("    step(40);", "    }", 1)}}}
""",
    "crates/one/out/Made.antt": "is_free : ℕ\n" * 501,
    "tests/long.py": "pass\n" * 501,
    "tools/short.py": "pass\n" * 500,
    "README.md": """Of `is_free`, `Row::put`, `Row::gone`, `AnswersX`, `x_row`, `--no-flag`,
`no_file.py` and `two words`.
""",
    "docs/PAGE.md": """`gone_name`, `GoneName`, `is-gone`, but `put_all(a)`, gone_there and `put-all`.

```console
$ ./mapf `gone_here`
```

And `gone()`.
""",
    "examples/put.py": "# put-all\n",
    "docs/PROMISES.md": """# Promises

|It is no promise.|`never`|||`one`|1|

<!--promises-->

|Promise|Call|Premises|Law|To believe|Lines|
|---|---|---|---|---|---|
|A row is one.|`two::is_row`||`IsRow`|`two/Rows`<br>+1|6|
| It is free. | `one::is_free` | | `lost_law` | `one/Cells` | 4 |
|It is put.|`two::Row::put_all`<br>`put`|M||

<!--end-->

More.
""",
}
# Its page of promises once it is written anew.
PROMISES = UNTIDY["docs/PROMISES.md"]
for was, now in (
    ("| It is free. | `one::is_free` | | `lost_law` |", "|It is free.|`one::is_free`||`lost_law`|"),
    (" `one/Cells` | 4 |", "`one/Cells`|3|"),
    ("<br>`put`|M||", "<br>`put`|M||`two/Rows`<br>+1|6|"),
):
    PROMISES = PROMISES.replace(was, now)
# What the promise of a call reaches, and what is said where no promise has it.
REACHED = b"""crates/one/specs/Cells.antt:4: is_free, 3 lines
crates/two/specs/Rows.antt:5: IsRow, 3 lines
"""
NOT_REACHED = b"house: no promise of docs/PROMISES.md has the call 'never'\n"
# Each of its measures, with its places.
SEEN = {
    "specs-twice": [
        "crates/one/specs/Cells.antt:4: is_free, as in crates/two/specs/More.antt:1",
    ],
    "foreign-proofs": [
        "crates/two/src/lib.rt:1: two uses proofs of one",
        "crates/two/proofs/Rows.antt:3: two uses proofs of one",
    ],
    "long-functions": ["crates/two/src/lib.rt:5: is_row has 41 lines"],
    "many-parameters": ["crates/two/src/lib.rt:59: put_all has 6 parameters"],
    "long-files": ["tests/long.py:501: the file has 501 lines"],
    "wide-lines": [
        "crates/two/specs/More.antt:4: the line has 101 columns, not 100",
        "crates/two/proofs/Rows.antt:6: the line has 201 columns, not 200",
    ],
    "stale-names": [
        "docs/PAGE.md:1: gone_name",
        "docs/PAGE.md:1: GoneName",
        "docs/PAGE.md:1: is-gone",
        "docs/PAGE.md:7: gone",
        "docs/PROMISES.md:10: lost_law",
        "README.md:1: gone",
    ],
    "stale-promises": [
        "docs/PROMISES.md:10: there is no lost_law",
        "docs/PROMISES.md:10: --write-promises changes it",
        "docs/PROMISES.md:11: --write-promises changes it",
    ],
}
TOLD = """definitions  lines  promise
          2      6  two: is_row, IsRow
          1      3  one: is_free, lost_law
          2      6  two: Row::put_all, put
"""
NO_TABLE = "docs/PROMISES.md has no table between the lines '<!--promises-->' and '<!--end-->'"
# What can't be measured, by the file that is changed: its text, and what is said of it.
UNREADABLE = [
    ("crates/one/specs/Cells.antt", b"\xff", "crates/one/specs/Cells.antt is no text in UTF-8"),
    ("docs/PROMISES.md", b"# Promises\n", NO_TABLE),
    ("docs/PROMISES.md", b"<!--promises-->\n|a|\n|-|\n<!--end-->\n|b|\n", NO_TABLE),
    (
        "docs/PROMISES.md",
        b"<!--promises-->\n|a|\n|-|\n|A|`b`|c|\n<!--end-->\n",
        "docs/PROMISES.md:4: a row with 3 cells, where 6 are due",
    ),
]


def house(harness: Harness, *words: str) -> Ended:
    """Measures a folder, or this checkout."""
    return harness.run([sys.executable, str(ROOT / HOUSE), *words])


def measures(told: bytes) -> dict[str, tuple[int, int, list[str]]]:
    """What was told of each measure: its count, its limit and its places."""
    found: dict[str, tuple[int, int, list[str]]] = {}
    for line in told.decode().splitlines():
        begun = MEASURE.match(line)
        if begun:
            found[begun[1]] = int(begun[2]), int(begun[3]), []
        else:
            [*found.values()][-1][2].append(line.strip())
    return found


def untidy(harness: Harness) -> pathlib.Path:
    """A folder with that workspace."""
    folder = harness.folder()
    for name, text in UNTIDY.items():
        (folder / name).parent.mkdir(parents=True, exist_ok=True)
        (folder / name).write_text(text, encoding="utf-8")
    return folder


def of_the_sources(harness: Harness) -> Iterator[Outcome]:
    """Whether each count of the sources is within its limit."""
    ended = house(harness)
    found = measures(ended.out)
    yield compared("what is measured", str(HOUSE), [*found, ended.err], [*SEEN, b""])
    for name, (count, limit, where) in found.items():
        told = "\n        ".join([f"ran    {HOUSE}\n    wrote  {count}, above {limit}", *where])
        yield Outcome(name, told if count > limit else "")


def of_a_workspace(harness: Harness) -> Iterator[Outcome]:
    """Whether each measure counts what it has to, and no more."""
    root = ("--root", str(untidy(harness)))
    ended = house(harness, "--all", *root)
    found = measures(ended.out)
    wrote = (ended.status, ended.err)
    yield compared("a workspace above its limits", f"{HOUSE} --all", wrote, (1, b""))
    for name, due in SEEN.items():
        count, _, where = found.get(name, (0, 0, []))
        yield compared(f"{name} of it", f"{HOUSE} --all", (count, where), (len(due), due))
    for name, (count, limit, where) in measures(house(harness, *root).out).items():
        due = SEEN[name] if count > limit else []
        yield compared(f"{name} where all aren't asked for", str(HOUSE), where, due)
    hinted = ended.out.count(b": the limit may fall to ")
    due = sum(count < limit for count, limit, _ in found.values())
    yield compared("which limits may fall", f"{HOUSE} --all", hinted, due)


def of_promises(harness: Harness) -> Iterator[Outcome]:
    """Whether the page of promises is written as the sources have it, and what one reaches."""
    folder = untidy(harness)
    root, file = ("--root", str(folder)), folder / "docs/PROMISES.md"
    for words, due in (
        (("--promises",), Ended(0, TOLD.encode(), b"")),
        (("--reached", "is_row"), Ended(0, REACHED, b"")),
        (("--reached", "never"), Ended(1, b"", NOT_REACHED)),
        (("--write-promises",), Ended(0, b"", b"")),
        (("--write-promises",), Ended(0, b"", b"")),
    ):
        ended = house(harness, *words, *root)
        yield ended_as("promises", f"{HOUSE} {' '.join(words)}", ended, due)
    page = file.read_text(encoding="utf-8")
    yield compared("the page, written twice", f"{HOUSE} --write-promises", page, PROMISES)
    _, _, stale = measures(house(harness, "--all", *root).out)["stale-promises"]
    yield compared("what is stale then", str(HOUSE), stale, SEEN["stale-promises"][:1])
    file.unlink()
    due = b"house: docs/PROMISES.md can't be read: No such file or directory\n"
    ended = house(harness, "--write-promises", *root)
    yield ended_as("no page of promises", f"{HOUSE} --write-promises", ended, Ended(1, b"", due))


def of_bad_workspaces(harness: Harness) -> Iterator[Outcome]:
    """What is said where nothing can be measured."""
    for name, content, due in UNREADABLE:
        folder = untidy(harness)
        (folder / name).write_bytes(content)
        ended = house(harness, "--root", str(folder))
        yield ended_as(due, f"{HOUSE} --root", ended, Ended(1, b"", f"house: {due}\n".encode()))
    folder = harness.folder()
    ended = house(harness, "--root", str(folder))
    wrote = (ended.status, ended.out, ended.err.decode().splitlines()[-1:])
    due = (2, b"", [f"house.py: error: {folder} has no folder crates/"])
    yield compared("no workspace", f"{HOUSE} --root", wrote, due)


def of_memory() -> Iterator[Outcome]:
    """Which functions say that memory is wanting, and whether such lines are found."""
    for line, count in FORMS:
        ran = "a search of this line"
        yield compared(f"how often it is said by {line!r}", ran, places(line), count)
    found = making()
    for name in sorted({*found, *MADE}):
        due = PLACES.get(name, 1) if name in MADE else 0
        told = f"{name} says that memory is wanting"
        yield compared(told, "a search of crates/*/src", found.get(name, 0), due)


def outcomes(harness: Harness) -> Iterator[Outcome]:
    yield from of_memory()
    of_house = (of_the_sources, of_a_workspace, of_promises, of_bad_workspaces)
    parts = (*of_house, contracts.outcomes, measuring.outcomes, gate_tables.outcomes)
    yield from side_by_side([lambda part=part: list(part(harness)) for part in parts])
