"""The tables of the MAPF tracker's uploads, each row of which has a plan of its own: `map_name,scen_type,type_id,agents,..,solution_plan`."""
import csv
import pathlib
from typing import Iterator, Optional

from judging.jobs import PlanJob, job_of, rows_of
from tabling.jobs import BadJobs

# The columns that name a map and a row's scenario, and the one that has the plan.
NAMES = ("map_name", "scen_type", "type_id", "agents")
PLAN = "solution_plan"


def is_upload(path: pathlib.Path) -> bool:
    """Whether the file is such a table, by its heading. What can be read once alone is none."""
    if not path.is_file():
        return False
    with open(path, "rb") as file:
        head = file.readline(4096).decode("utf-8-sig", errors="replace").replace("\0", "")
    return {"map_name", PLAN} <= set(next(csv.reader([head]), []))


def read_upload(path: pathlib.Path, maps: Optional[pathlib.Path], scens: Optional[pathlib.Path]) -> Iterator[PlanJob]:
    """A job for each row. Maps and scenarios are looked for in these folders, or beside the table."""
    for where, fields in rows_of(path, (*NAMES, PLAN)):
        for name in NAMES:
            if not fields[name].strip() or "/" in fields[name]:
                raise BadJobs(f"{where}: '{fields[name]}' as {name}, a word or a number was due")
        map_file = f"{fields['map_name']}.map"
        scenario = f"{fields['map_name']}-{fields['scen_type']}-{fields['type_id']}.scen"
        more = {name: word for name, word in fields.items() if name != PLAN}
        yield job_of(
            {
                **more,
                "map": str((maps or path.parent) / map_file),
                "scenario": str((scens or path.parent) / scenario),
                "plan": where,
            },
            pathlib.Path(),
            where,
            # Some programs write the line ends of a cell as two characters.
            text=fields[PLAN].replace("\\n", "\n"),
        )
