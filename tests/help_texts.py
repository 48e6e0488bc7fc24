"""The help of two commands, as it is printed: samples of its layout, which is that of `clap`."""

CHECK = """\
Checks a plan on a map, and perhaps that it solves a scenario

Usage: mapf check [OPTIONS] <map> <plan>

Arguments:
  <map>   The file of the map
  <plan>  The file of the plan

Options:
      --scen <scen>      The file of a scenario that the plan is to solve
      --agents <agents>  How many agents the plan is to have
      --all <all>        Lists all faults, up to 1000 or to so many behind =
      --bound            Tells what such plans cost at least
      --no-rotation      Rejects a plan with a rotation
      --json             Writes the answer as JSON
      --explain          Explains a fault, behind its line
  -h, --help             Print help

Standard output is one line:
  accepted agents K cost C makespan M   the plan is valid
  rejected FAULT                        it isn't, and this is its least fault
With --scen the plan must also solve the first rows of the scenario, as many as
it has agents. With --agents it must have that many. With --no-rotation a plan
with nothing else against it must have no rotation, since one with a rotation
can't be run; the fault is then `Rotation S I J ..`, as `mapf deps` lists it.
With --bound the line says beside what such plans cost at least:
  accepted agents K cost C of B makespan M of D
With --all it is a line for each fault, up to 1000, or N with --all=N, as they
come: by time, then kind, then agents; and then how many lines and agents:
  faults F agents A                     these are all
  faults F agents A more                there are more

Status:
  0  the answer is `accepted`
  1  the answer is `rejected`, or a text has a fault
  2  a bad command line
  3  a file can't be opened (--explain says which, and why), a device failed, or
     memory was refused

Example:
  mapf check examples/corner.map examples/corner.plan --scen examples/corner.scen
"""

DEPS = """\
Checks a plan on a map, and says which move waits for which

Usage: mapf deps [OPTIONS] <map> <plan>

Arguments:
  <map>   The file of the map
  <plan>  The file of the plan

Options:
      --cell <X> <Y>  Writes who comes into this cell, and when
      --explain       Explains a fault, behind its line
  -h, --help          Print help

Standard output:
  agents A moves M needs N rotations R   how many there are
  need I K J C          move K of agent I waits until agent J has finished C
                        moves; a line for each move that waits
  rotation S I J ..     in step S these agents turn round in a circle; a line
                        for each such circle
With --cell instead a line for each visit to the cell, as their times rise:
  visit I K T           agent I comes into it at time T, as cell K of its path

Status:
  0  the lines are written
  1  a text or the plan has a fault: one line on standard error
  2  a bad command line
  3  a file can't be opened (--explain says which, and why), a device failed, or
     memory was refused

Example:
  mapf deps examples/turn.map examples/turn.plan
"""
