"""Names of the code that README and docs/ have in backticks, and that stand nowhere else."""
import re
from typing import Iterator

from measures.workspace import Place, Workspace

# Blocks of commands are no prose, and the tests run them.
FENCED = re.compile(r"^ *```.*?^ *```", re.DOTALL | re.MULTILINE)
QUOTED = re.compile(r"(?<!`)`([^`\n]+)`(?!`)")
# `step_from`, `Map::width`, `harness.is_long`, `length-take-le`, `words()`; no option and no path.
FILE = r"\.(?:py|sh|md|rt|antt|edit|txt|json|jsonl|csv|conf|service)\b"
NAME = re.compile(
    rf"(?<![\w/\\$<*+=:@-])([A-Za-z]\w*(?:-\w+)*)(\(\))?(?![\w/*+=-]|\.\.|{FILE})"
)
LOOKS_LIKE_ONE = re.compile(r"\w_\w|^[A-Z]\w*[a-z]|[a-z]-[a-z]")
# `AnswersX`, `x_cmd` and `X_commands` stand for names.
STANDS_FOR_SOME = re.compile(r"(?:^|_|[a-z])X(?=_|$|[A-Z])|(?:^|_)x(?=_|$)")
WORD = re.compile(r"[\w-]+")
# A name of systemd.
OF_OTHERS = {"RuntimeDirectory"}
FOLDERS = ("crates", "tools", "tests", "bench", "examples", "completions", ".ci")


def stale_names(workspace: Workspace) -> Iterator[Place]:
    """Each such name: no file of the code, the tools, the tests or the examples has it."""
    known = OF_OTHERS | known_words(workspace)
    return (place for place in names_of_docs(workspace) if place.what not in known)


def known_words(workspace: Workspace) -> set[str]:
    """The words of these files and of their paths, whole and between hyphens."""
    paths = [path for folder in FOLDERS for path in workspace.files(folder)]
    texts = ("\n".join(paths), *map(workspace.text, paths))
    words = {word for text in texts for word in WORD.findall(text)}
    return words.union(*(word.split("-") for word in words))


def names_of_docs(workspace: Workspace) -> Iterator[Place]:
    """The names in backticks that look like names of the code."""
    for path in [*workspace.files("docs", ".md"), *({"README.md"} & set(workspace.paths))]:
        text = FENCED.sub(lambda block: "\n" * block[0].count("\n"), workspace.text(path))
        for number, line in enumerate(text.splitlines(), 1):
            for name in (name for quoted in QUOTED.findall(line) for name in names_in(quoted)):
                yield Place(path, number, name)


def names_in(quoted: str) -> Iterator[str]:
    for name, is_called in NAME.findall(quoted.replace("::", " :: ")):
        is_one = is_called or "::" in quoted or LOOKS_LIKE_ONE.search(name)
        if is_one and not STANDS_FOR_SOME.search(name):
            yield name
