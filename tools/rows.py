#!/usr/bin/env python3
"""Certifies scenarios: what `mapf rows` says of all rows of each, as one table.

Usage: rows.py MAP SCEN -o RESULTS [OPTIONS]
       rows.py --maps FOLDER SCEN.. -o RESULTS [OPTIONS]

With --maps a SCEN may be a folder, and all *.scen below it are meant. The rows of a scenario name its map: the last part of that name is that of a
file in FOLDER.

RESULTS, CSV or JSON lines by its name, has a line a scenario, in the order in which they are done. The verdict is `agree`, `differ` (some row doesn't
agree, is unreachable, or of another size: the first one is named), `unreadable` (a text has a fault, or no one map is named) or `failed` (a file, a
process or a tool failed, or the time was over). A call that was stopped goes on behind what stands. A result whose map, scenario or program are
others since is made anew.

Status 0: every scenario has a result. 1: a folder has no scenario. 2: a bad command line. 3: the results can't be written, or the cluster failed.
"""
import argparse
import pathlib
import sys
from typing import Sequence

sys.dont_write_bytecode = True
from certifying.jobs import ScenarioJob, by_maps  # noqa: E402
from certifying.verdicts import Certifying  # noqa: E402
from leaving import heed_signals  # noqa: E402
from mapf.program import Program  # noqa: E402
from tabling.calls import Tool, add_options, hold_options  # noqa: E402


class Rows(Tool):
    """Certifies scenarios."""

    name, does, things = "rows", "certifies", "scenarios"
    kind = ScenarioJob

    def read_words(self, words: Sequence[str]) -> argparse.Namespace:
        parser = argparse.ArgumentParser(prog="rows.py", description=__doc__, formatter_class=argparse.RawDescriptionHelpFormatter)
        parser.add_argument("files", nargs="*", metavar="FILE", help="the map and the scenario, or with --maps scenarios and folders of them")
        parser.add_argument("--maps", type=pathlib.Path, metavar="FOLDER", help="the maps, by the names that rows have for them")
        parser.add_argument("--straight", action="store_true", help="least numbers of straight steps, and not the listed lengths")
        add_options(parser)
        given = parser.parse_args(words)
        if given.told:
            return given
        if given.maps is None and len(given.files) != 2:
            parser.error("a map and a scenario are wanted, or --maps and scenarios")
        if not given.files:
            parser.error("a scenario is wanted, or a folder of them")
        hold_options(parser, given)
        return given

    def jobs_of(self, given: argparse.Namespace, program: Program) -> list[ScenarioJob]:
        return by_maps(program, given.files, given.maps, given.processes) if given.maps else [ScenarioJob(*given.files)]

    def work_of(self, given: argparse.Namespace, program: Program) -> Certifying:
        return Certifying(program, given.seconds, given.straight)


main = Rows().main

if __name__ == "__main__":
    heed_signals()
    sys.exit(main(sys.argv[1:]))
