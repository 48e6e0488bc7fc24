"""Jobs: what a tool works on one by one."""
import dataclasses
import json
import pathlib


# What stands in no name of a table.
NEVER_NAMED = frozenset("\0\r\n")


class BadJobs(Exception):
    """What is wrong with a list of jobs, or with a name."""


@dataclasses.dataclass(frozen=True)
class Job:
    """The files as they are named. Each tool has a kind of its own, with more to say."""

    map: str
    scenario: str
    # The other columns of the list, which go through to the results.
    more: tuple[tuple[str, str], ...] = ()
    # Where the names of the files begin.
    folder: pathlib.Path = dataclasses.field(compare=False, default=pathlib.Path())

    @property
    def columns(self) -> dict[str, str]:
        """All that the list says of the job."""
        return {"map": self.map, "scenario": self.scenario, **dict(self.more)}

    @property
    def texts(self) -> dict[str, str]:
        """What stands in the list itself, and in no file, by its column."""
        return {}

    def file(self, name: str) -> str:
        return str(self.folder / name)

    def packed(self) -> str:
        """The job as JSON, for a process that works elsewhere."""
        return json.dumps({**dataclasses.asdict(self), "folder": str(self.folder.resolve())})

    @classmethod
    def unpacked(cls, text: str) -> "Job":
        fields = json.loads(text)
        return cls(**{**fields, "more": tuple(map(tuple, fields["more"])), "folder": pathlib.Path(fields["folder"])})
