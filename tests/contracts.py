"""tools/contracts.py: the page of all public calls with their clauses."""
import pathlib
import sys
from typing import Iterator

from harness import ROOT, Ended, Harness, Outcome, compared, ended_as

TOOL = ROOT / "tools" / "contracts.py"
# Calls of three crates, as a reader of their sources finds them.
LISTED = {
    "grid": """#### `Map::terrain`

The terrain of a cell; `None` off the map.

```rust
pub fn terrain(&self, cell: Cell) -> Option<Terrain>
    ensures { result ≡ terrain_at self.now cell }
```
""",
    "model": """#### `laws::every_run_is_safe`

In every run over a timetable without vertex conflicts, whatever""",
    "agent": """#### `Tape::write_at`

Writes a record behind the whole records, over what stands there.

```rust
fn write_at(&mut self, at: u32, bytes: &[u8; RECORD_SIZE]) -> Result<(), TapeError>
    requires { MayWrite (state self.old) at }
    ensures { may_write self.old at bytes.now (is_ok result) self.new }
```
""",
}
# Functions that no other crate can name: private ones, one of the crate alone, a public one of a
# private type.
UNLISTED = {"grid": ("count_call", "from_characters"), "plan": ("find_fault",), "agent": ("raise",)}
# A workspace, and its page.
FILES = {
    "crates.txt": "# The product.\nbase:\ntop: base\nmapf: top\ntrials: top\n",
    "crates/base/src/lib.rt": """//! What all stand on.

mod rows;
pub mod laws;
mod sides;

pub use rows::Row;
pub use sides::{
    Side, by_side,
};

/// Where it begins.
pub const fn begin() -> u8 {
    0
}
""",
    "crates/base/src/rows.rt": """//! Rows,
//! of cells.

/// A row.
pub struct Row {}

struct Hidden {}

trait Inner {
    fn inside(&self);
}

impl Row {
    /// How long it is.
    /// In cells.
    // A comment.
    #[inline(always)]
    pub fn length(
        &self,
        of: u8,
    ) -> u8
        requires few { of < 3 }
        ensures { result
            ≡ of }
    {
        of
    }

    fn own(&self) {}

    pub(crate) fn of_crate(&self) {}
}

impl Inner for Row {
    fn inside(&self)
        ensures { Inside self.now }
    {}
}

impl<T: Into<u8>> From<T> for Row {
    fn from(it: T) -> Row
        ensures { IsRow result }
    {
        Row {}
    }
}

impl Drop for Row {
    fn drop(&mut self) {}
}

impl Hidden {
    pub fn hidden(&self) {}
}

pub fn not_passed_on() {}
""",
    "crates/base/src/laws.rt": """//! Laws.

/// It holds.
pub fn holds()
    ensures one { One }
    ensures two { Two }
{}

fn helps() {}
""",
    "crates/base/src/sides.rt": """/// A side.
pub trait Side {
    /// Which it is.
    fn which(&self) -> u8
        ensures { Which result };
}

/// By a side.
pub fn by_side() {}
""",
    "crates/top/src/lib.rt": "//! The top.\n\npub use base::{Row, by_side};\n\npub fn top() {}\n",
    "crates/mapf/src/main.rt": "fn main() {}\n",
    "crates/trials/src/lib.rt": "//! Trials.\npub fn trial() {}\n",
}
BASE = """## `base`

What all stand on.

#### `begin`

Where it begins.

```rust
pub const fn begin() -> u8
```

### `rows`

Rows, of cells.

#### `Row::length`

How long it is.
In cells.

```rust
pub fn length(
    &self,
    of: u8,
) -> u8
    requires few { of < 3 }
    ensures { result
        ≡ of }
```

#### `Row::from`, by `From<T>`

```rust
fn from(it: T) -> Row
    ensures { IsRow result }
```

### `laws`

Laws.

#### `laws::holds`

It holds.

```rust
pub fn holds()
    ensures one { One }
    ensures two { Two }
```

### `sides`

#### `Side::which`

Which it is.

```rust
fn which(&self) -> u8
    ensures { Which result }
```

#### `by_side`

By a side.

```rust
pub fn by_side()
```
"""
TOP = """## `top`

The top.

Passes on `Row`, `by_side` of `base`.

#### `top`

```rust
pub fn top()
```
"""


def page(harness: Harness, *words: str) -> Ended:
    return harness.run([sys.executable, str(TOOL), *words])


def workspace(harness: Harness) -> pathlib.Path:
    folder = harness.folder()
    for name, text in FILES.items():
        (folder / name).parent.mkdir(parents=True, exist_ok=True)
        (folder / name).write_text(text, encoding="utf-8")
    return folder


def behind_title(text: bytes) -> str:
    """A page from its first crate on."""
    return text.decode()[text.decode().find("\n## ") + 1 :]


def of_checkout(harness: Harness) -> Iterator[Outcome]:
    ended = page(harness)
    text = ended.out.decode()
    wrote = (ended.status, ended.err, text[:12])
    yield compared("the page", TOOL.name, wrote, (0, b"", "# Contracts\n"))
    for crate, call in LISTED.items():
        own = page(harness, "--crate", crate).out.decode()
        found = [(call in it, it.count(call.splitlines()[0])) for it in (text, own)]
        yield compared(f"a call of {crate}", f"{TOOL.name} --crate {crate}", found, [(True, 1)] * 2)
    for crate, names in UNLISTED.items():
        own = page(harness, "--crate", crate).out.decode()
        found = [name for name in names if f"{name}`\n" in own or f"fn {name}(" in own]
        yield compared(f"no calls of {crate}", f"{TOOL.name} --crate {crate}", found, [])
    ended = page(harness, "--crate", "trees")
    wrote = (ended.status, ended.out, ended.err[:60], ended.err.count(b"\n"))
    due = (2, b"", b"contracts: 'trees' is no library crate: there are text_io, g", 1)
    yield compared("no such crate", f"{TOOL.name} --crate trees", wrote, due)


def of_workspace(harness: Harness) -> Iterator[Outcome]:
    folder = workspace(harness)
    root = ["--root", str(folder)]
    for words, due in ((root, f"{BASE}\n{TOP}"), ([*root, "--crate", "top"], TOP)):
        ended = page(harness, *words)
        wrote = (ended.status, behind_title(ended.out), ended.err)
        yield compared("a workspace", f"{TOOL.name} {words[2:]}", wrote, (0, due, b""))
    out = folder / "page.md"
    ended = page(harness, *root, "-o", str(out))
    yield ended_as("a page in a file", f"{TOOL.name} -o", ended, Ended(0, b"", b""))
    yield compared("the file", f"{TOOL.name} -o", behind_title(out.read_bytes()), f"{BASE}\n{TOP}")
    ended = page(harness, *root, "-o", str(folder))
    due = Ended(3, b"", f"contracts: {folder}: is no regular file\n".encode())
    yield ended_as("a folder is no page", f"{TOOL.name} -o", ended, due)
    (folder / "crates/base/src/rows.rt").write_bytes(b"\xff")
    due = Ended(1, b"", b"contracts: crates/base/src/rows.rt is no text in UTF-8\n")
    yield ended_as("no text", TOOL.name, page(harness, *root), due)
    (folder / "crates/base/src/rows.rt").unlink()
    why = b"crates/base/src/rows.rt can't be read: No such file or directory"
    due = Ended(1, b"", b"contracts: %s\n" % why)
    yield ended_as("a module without a file", TOOL.name, page(harness, *root), due)


def outcomes(harness: Harness) -> Iterator[Outcome]:
    yield from of_checkout(harness)
    yield from of_workspace(harness)
