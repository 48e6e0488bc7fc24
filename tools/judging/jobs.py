"""Jobs: a plan that is to be judged on a map, perhaps for the first rows of a scenario."""
import csv
import dataclasses
import json
import pathlib
import re
from typing import Any, Iterator, Optional, Sequence

from judging.proofs import BOUND, bound_of
from judging.table import TABLE
from tabling.jobs import NEVER_NAMED, BadJobs, Job

# The columns of a list of jobs that say what is to be judged; those behind the first two may be missing or empty. Other columns go through.
COLUMNS = ("map", "plan", "scenario", "agents")
REQUIRED = ("map", "plan")
# The columns that have the cost which a planner or a table states.
COSTS = ("solution_cost", "solution cost")
# The most agents that a plan has; no number of a job needs more digits.
MOST_AGENTS = 10_000
# A table may have whole plans in its fields.
MOST_IN_A_FIELD = 1 << 30
# What a field of a name may be.
FIELDS = {
    **{"planner": r"(?P<planner>[^/]+?)", "map": r"(?P<map>[^/]+)"},
    **{"scen": r"(?P<scen>[A-Za-z]+)", "number": r"(?P<number>[0-9]+)", "agents": r"(?P<agents>[0-9]+)"},
}


@dataclasses.dataclass(frozen=True)
class PlanJob(Job):
    """A plan on a map, perhaps for a scenario, and how many agents it is to have, where that is said."""

    plan: str = ""
    agents: str = ""
    # The plan itself, where a table has it and not a file, and the cost that the table claims for it.
    text: Optional[str] = None
    claim: str = ""

    @property
    def columns(self) -> dict[str, str]:
        return {**super().columns, "plan": self.plan, "agents": self.agents}

    @property
    def texts(self) -> dict[str, str]:
        return {} if self.text is None else {"plan": self.text}


def job_of(fields: dict[str, Any], folder: pathlib.Path, where: str, text: Optional[str] = None) -> PlanJob:
    """The job with these fields."""
    for name in fields:
        if name in TABLE.own or not name.strip():
            raise BadJobs(f"{where}: '{name}' is a column of the results, another name was due" if name.strip() else f"{where}: a column has no name")
    words = {name: "" if fields.get(name) is None else str(fields[name]) for name in (*COLUMNS, *fields)}
    for name in REQUIRED:
        if not words[name]:
            raise BadJobs(f"{where}: there is no {name}, the name of a file was due")
    for name, word in words.items():
        if NEVER_NAMED & set(word):
            raise BadJobs(f"{where}: the {name} has a line end or a zero byte, a name without one was due")
    agents = words["agents"]
    if agents and not (agents.isascii() and agents.isdigit() and len(agents) < 6 and int(agents) <= MOST_AGENTS):
        raise BadJobs(f"{where}: '{agents[:40]}' agents, a number from 0 to {MOST_AGENTS} was due")
    if words.get(BOUND) and bound_of(words[BOUND]) is None:
        raise BadJobs(f"{where}: '{words[BOUND][:40]}' as {BOUND}, a number from 0 on was due")
    claim = next((words[name] for name in COSTS if words.get(name)), "")
    more = tuple((name, word) for name, word in words.items() if name not in COLUMNS)
    return PlanJob(words["map"], words["scenario"], more, folder, words["plan"], str(int(agents)) if agents else "", text, claim)


def text_in(path: pathlib.Path) -> str:
    try:
        return path.read_bytes().decode("utf-8-sig")
    except UnicodeDecodeError:
        raise BadJobs(f"{path}:1: the list is no text, UTF-8 was due") from None


def rows_of(path: pathlib.Path, required: Sequence[str]) -> Iterator[tuple[str, dict[str, str]]]:
    """The rows of a table, each with where it begins."""
    csv.field_size_limit(MOST_IN_A_FIELD)
    rows = csv.DictReader(text_in(path).splitlines(keepends=True), strict=True)
    try:
        heading = rows.fieldnames or []
        if not set(required) <= set(heading) or len(set(heading)) < len(heading):
            missing = next((name for name in required if name not in heading), None)
            fault = f"has no {missing}" if missing else "has one column twice"
            raise BadJobs(f"{path}:1: the heading {fault}; {','.join(required)} was due")
        line = rows.line_num + 1
        for row in rows:
            if None in row or None in row.values():
                raise BadJobs(f"{path}:{line}: the row has not one field a column, {len(heading)} were due")
            yield f"{path}:{line}", row
            line = rows.line_num + 1
    except csv.Error as fault:
        raise BadJobs(f"{path}:{rows.line_num}: {fault}, a row of CSV was due") from None


def from_csv(path: pathlib.Path) -> Iterator[PlanJob]:
    return (job_of(row, path.parent, where) for where, row in rows_of(path, REQUIRED))


def from_json_lines(path: pathlib.Path) -> Iterator[PlanJob]:
    for number, line in enumerate(text_in(path).splitlines(), 1):
        if not line.strip():
            continue
        try:
            fields = json.loads(line, parse_int=str, parse_float=str)
        except (ValueError, RecursionError):
            raise BadJobs(f"{path}:{number}: the line is no JSON, an object was due") from None
        if not isinstance(fields, dict) or any(isinstance(value, (dict, list, bool, float)) for value in fields.values()):
            raise BadJobs(f"{path}:{number}: the line is no job, an object of texts and numbers was due")
        yield job_of(fields, path.parent, f"{path}:{number}")


def read_jobs(path: pathlib.Path) -> list[PlanJob]:
    """The jobs of a list, CSV or JSON lines by its name. Files are named from the list's folder on."""
    return list((from_json_lines if path.suffix in (".json", ".jsonl", ".ndjson") else from_csv)(path))


def pattern_of(template: str) -> re.Pattern[str]:
    """What the names of a template look like: `{map}` and the other fields stand for their values, `*` for anything."""
    pattern, seen = "", set()
    for part in re.split(r"(\{[^{}]*\}|\*)", template):
        name = part[1:-1] if part.startswith("{") else ""
        if part == "*":
            pattern += ".*"
        elif not name and not part.startswith("{"):
            pattern += re.escape(part)
        elif name not in FIELDS or name in seen:
            raise BadJobs(f"'{part}' in the pattern '{template}', one of {', '.join(f'{{{it}}}' for it in FIELDS)}, each once, was due")
        else:
            seen.add(name)
            pattern += FIELDS[name]
    if "map" not in seen:
        raise BadJobs(f"the pattern '{template}' has no {{map}}")
    return re.compile(pattern)


def by_names(plans: Sequence[str], maps: pathlib.Path, scens: Optional[pathlib.Path], template: str, scen_template: str) -> list[PlanJob]:
    """A job for each plan, by what its name says."""
    pattern = pattern_of(template)
    jobs = []
    for plan in plans:
        # A pattern with folders is held against as many of them.
        end = "/".join(pathlib.PurePath(plan).parts[-1 - template.count("/") :])
        found = pattern.fullmatch(end)
        if not found:
            raise BadJobs(f"{plan}: the name is not like '{template}'")
        fields = found.groupdict()
        try:
            scenario = str(scens / scen_template.format(**fields)) if scens else ""
        except (KeyError, IndexError, ValueError):
            raise BadJobs(f"the name of a scenario can't be made by '{scen_template}' of a plan's that is like '{template}'") from None
        named = {name: fields[name] for name in ("agents", "planner") if name in fields}
        jobs.append(job_of({"map": str(maps / f"{fields['map']}.map"), "plan": plan, "scenario": scenario, **named}, pathlib.Path(), plan))
    return jobs
