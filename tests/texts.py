"""Maps, plans, scenarios and events that several parts use."""

# A row of three free cells, two rows with a blocked corner, and two by two free cells.
LANE = "type octile\nheight 1\nwidth 3\nmap\n...\n"
CORNER = "type octile\r\nheight 2\r\nwidth 3\r\nmap\r\n...\r\n.@."
CORNER_WRITTEN = "type octile\nheight 2\nwidth 3\nmap\n...\n.@.\n"
SHORT = "type octile\r\nheight 2\r\nwidth 3\r\nmap\r\n...\r\n.@"
SQUARE = "type octile\nheight 2\nwidth 2\nmap\n..\n..\n"
# Four by two free cells.
HALL = "type octile\nheight 2\nwidth 4\nmap\n....\n....\n"
# A row whose middle cell is blocked.
WALL = "type octile\nheight 1\nwidth 3\nmap\n.@.\n"


def plan(*agents: str, number: int = 7) -> str:
    """The text of a plan with these agents, each its column, its row and its acts."""
    return "".join([f"mapf-plan 1\nnumber {number}\nagents {len(agents)}\n", *(f"agent {agent}\n" for agent in agents)])


def beside(mark: str, kept: str) -> bytes:
    """What stands beside a tape that belongs to a plan: with the mark `+` where a record was stored."""
    return f"mapf-tape 1 {mark}\n{kept}".encode()


# Two agents that go one cell east behind one another.
BEHIND = plan("1 0 e-", "0 0 e")
# That no plan between the ends of BEHIND costs less.
PROOF = "mapf-proof 1\nobjective cost\nbound 2\nleaf\n"
# The same, and behind it both come back.
ONWARD = plan("1 0 e--w", "0 0 e--w")
# Two that exchange their cells.
SWAP = plan("0 0 e", "1 0 w")
# One that stays, and one that comes into its cell.
VERTEX = plan("0 0 =", "2 0 ww")
# One that comes back to where it began, and one that stays.
BACK = plan("1 0 ew", "0 0 =")
# Four that turn round in a circle.
TURN = plan("0 0 e", "1 0 s", "1 1 w", "0 1 n", number=14)
# One that leaves its cell, one that stays, and one that comes into the first one's cell.
RELAY = plan("1 0 s", "0 1 =", "0 0 e")
NOBODY = plan()


def scen(*rows: str) -> str:
    """The text of a scenario with these rows, without their bucket."""
    return "".join(["version 1\n", *(f"0 {row}\n" for row in rows)])


# The tasks that the plan BEHIND solves.
TASKS = scen("m.map 3 1 1 0 2 0 1", "m.map 3 1 0 0 1 0 1")
# A row on the map CORNER, and what is written of it.
ROW = "version 1.0\r\n0 m.map 3 2 0 1 1 0 2.00000000\r\n"
ROW_WRITTEN = "version 1\n0\tm.map\t3\t2\t0\t1\t1\t0\t2.00000000\n"


def events(*lines: str, version: int = 1) -> str:
    return "".join(f"{line}\n" for line in (f"mapf-events {version}", *lines))
