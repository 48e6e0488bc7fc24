"""Scenarios that are to be certified, each with its map."""
import concurrent.futures
import dataclasses
import pathlib
from typing import Iterator, Sequence

import canonical
from mapf.faults import Failed
from mapf.program import Program
from refused import Refused
from tabling.jobs import NEVER_NAMED, BadJobs, Job
from tabling.tables import FAILED, UNREADABLE

# The names of scenarios in a folder, and the column of a row that names its map.
SCENARIOS, NAME = "*.scen", 1


@dataclasses.dataclass(frozen=True)
class ScenarioJob(Job):
    """A scenario on a map. Where none is named, what is to be said of that."""

    verdict: str = ""
    fault: str = ""


def by_maps(program: Program, names: Sequence[str], maps: pathlib.Path, at_once: int) -> list[ScenarioJob]:
    """A job for each scenario that is named, or lies in a folder that is."""
    scenarios = list(scenarios_of(names))
    with concurrent.futures.ThreadPoolExecutor(at_once) as pool:
        return list(pool.map(lambda scenario: job_of(program, scenario, maps), scenarios))


def scenarios_of(names: Sequence[str]) -> Iterator[str]:
    for name in names:
        path = pathlib.Path(name)
        if not path.is_dir():
            yield name
            continue
        below = sorted(str(it) for it in path.rglob(SCENARIOS) if not it.is_dir())
        if not below:
            raise BadJobs(f"{name}: the folder has no {SCENARIOS}, scenarios were due")
        yield from below


def job_of(program: Program, scenario: str, maps: pathlib.Path) -> ScenarioJob:
    """The job of a scenario, whose rows name the map: the last part of that name is that of a file in the folder of maps."""
    try:
        return ScenarioJob(str(maps / pathlib.PurePosixPath(map_named(program, scenario)).name), scenario)
    except Refused as fault:
        return ScenarioJob("", scenario, verdict=UNREADABLE, fault=str(fault))
    except Failed as fault:
        return ScenarioJob("", scenario, verdict=FAILED, fault=str(fault))


def map_named(program: Program, scenario: str) -> str:
    """The one map that all rows name, by the canonical form of the scenario."""
    rows = canonical.text(program, "scen", scenario).split(b"\n")[1:-1]
    names = list(dict.fromkeys(row.split(b"\t")[NAME].decode(errors="surrogateescape") for row in rows))
    if not names:
        raise Refused(f"{scenario}: there is no row, one that names the map was due")
    if len(names) > 1:
        raise Refused(f"{scenario}: rows name the maps {names[0]} and {names[1]}, one was due")
    if NEVER_NAMED & set(names[0]):
        raise Refused(f"{scenario}: the name of the map has a line end or a zero byte, a name without one was due")
    return names[0]
