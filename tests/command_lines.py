"""Command lines: which words are a command and of which files, what is said of those that are none, and help."""
from typing import Iterator, Mapping, Sequence

import helps
from harness import Ended, Harness, Outcome, compared, ended_as, shown

# A map, a plan, a scenario and events that are told apart by what each command answers.
FILES = {
    "M": b"type octile\nheight 1\nwidth 3\nmap\n...\n",
    "P": b"mapf-plan 1\nnumber 7\nagents 2\nagent 1 0 e-\nagent 0 0 e\n",
    "S": b"version 1\n0 m.map 3 1 1 0 2 0 1\n0 m.map 3 1 0 0 1 0 1\n0 m.map 3 1 0 0 2 0 2\n",
    "E": b"mapf-events 1\nstart 0\n",
    # A plan without agents, whose runs end in one way only.
    "O": b"mapf-plan 1\nnumber 7\nagents 0\n",
    # A plan that goes on from P.
    "Q": b"mapf-plan 1\nnumber 7\nagents 2\nagent 1 0 e--w\nagent 0 0 e--w\n",
    # Proofs that no plan from the ends of P to those costs less, by the sum of costs and by the makespan.
    "F": b"mapf-proof 1\nobjective cost\nbound 2\nleaf\n",
    "G": b"mapf-proof 1\nobjective makespan\nbound 1\nleaf\n",
    # A tape on which nothing is kept yet.
    "K": b"",
    # The tapes of all agents of P: one moves, and nothing is kept of the other yet.
    "J0": b"P\1\0\0\0\7\0\0\0\0",
    "J1": b"",
}
NAMED_AS_OPTIONS = {"-h": FILES["M"], "--json": FILES["P"], "--scen": FILES["S"], "-": FILES["E"], "--complete": FILES["E"]}
MAP = FILES["M"].decode()
BLOCKED = "type octile\nheight 1\nwidth 3\nmap\n.@.\n"
SCEN = "version 1\n0\tm.map\t3\t1\t1\t0\t2\t0\t1\n0\tm.map\t3\t1\t0\t0\t1\t0\t1\n0\tm.map\t3\t1\t0\t0\t2\t0\t2\n"
ACCEPTED = "accepted agents 2 cost 2 makespan 1\n"
JSON = '{"accepted":true,"agents":2,"cost":2,"makespan":1}\n'
AGREE = "rows 3 agree 3 differ 0 unreachable 0 size 0\n"
STRAIGHT = "0 least 1\n1 least 1\n2 least 2\nrows 3 sum 4 greatest 2 unreachable 0 size 0\n"
EMPTY = "rows 0 agree 0 differ 0 unreachable 0 size 0\n"
BOUNDS_JSON = '{"cost":2,"cost_bound":2,"makespan":1,"makespan_bound":1,"agents":[{"cost":1,"bound":1},{"cost":1,"bound":1}]}\n'
COMPLETE = "refused NoSuchAgent\ncomplete 0\n"
NEEDS = "agents 2 moves 2 needs 1 rotations 0\nneed 1 0 0 1\n"
VISITS = "visit 0 0 0\nvisit 1 1 1\n"
ROWS = "0 1 0 0 0\n1 2 0 1 0\n2 2 0 1 0\n"
ROW_OF_1 = "0 0 0\n1 1 0\n"
CUT_AT_0 = "mapf-plan 1\nnumber 7\nagents 2\nagent 1 0 =\nagent 0 0 =\n"
CUT_AT_1 = "mapf-plan 1\nnumber 7\nagents 2\nagent 1 0 e\nagent 0 0 e\n"
UNCUT = "mapf-plan 1\nnumber 7\nagents 2\nagent 1 0 e-\nagent 0 0 e\n"
CONTINUES = "continues from 2, adds 2 moves\n"
OPTIMAL = "optimal cost 2 nodes 1\n"
OPTIMAL_JSON = '{"optimal":true,"cost":2,"bound":2,"nodes":1}\n'
KEPT = "at 1 0 done 0\nrecords 0 torn 0\n"
# What is left of P, with all agents and without one.
LEFT = "mapf-plan 1\nnumber 8\nagents 2\nagent 2 0 =\nagent 0 0 e\n"
LEFT_WITHOUT_0 = "mapf-plan 1\nnumber 8\nagents 1\nagent 0 0 e\n"
LEFT_WITHOUT_1 = "mapf-plan 1\nnumber 8\nagents 1\nagent 2 0 =\n"
STATES_JSON = (
    '{"agent":0,"between":[1,0,2,0],"done":0,"of":1,"state":"moving"}\n'
    '{"agent":1,"at":[0,0],"done":0,"of":1,"state":"waits","for":0,"until":1}\n'
    '{"root":0,"keeps":1}\n'
)
# Where the robot of agent 0 may be.
PLACES = "at 1 0 done 0\nat 2 0 done 1\n"
STATES = "0 between 1 0 2 0 done 0 of 1\n1 at 0 0 done 0 of 1 waits 0 1\nroot 0 keeps 1\n"

# Words that are a command, and what it writes. After `--` each word is a word, and none an option.
COMMANDS = [
    ("map M", MAP),
    ("map ./M", MAP),
    ("map -- -h", MAP),
    ("map M --explain", MAP),
    ("map --explain M", MAP),
    ("map M --block 1 0", BLOCKED),
    ("map --block 1 0 M", BLOCKED),
    ("map --block 0001 00 --explain -- M", BLOCKED),
    ("scen S", SCEN),
    ("row M S 0", "shortest 1 0 listed 1 agrees\n"),
    ("row M S 002", "shortest 2 0 listed 2 agrees\n"),
    ("row M S 000000000000000001", "shortest 1 0 listed 1 agrees\n"),
    ("row -- M S 2", "shortest 2 0 listed 2 agrees\n"),
    ("rows M S", "0 shortest 1 0 listed 1 agrees\n1 shortest 1 0 listed 1 agrees\n2 shortest 2 0 listed 2 agrees\n" + AGREE),
    ("rows M S --straight", STRAIGHT),
    ("rows --straight M S --from 0 --to 3", STRAIGHT),
    ("rows M --from=2 --to=4294967295 S", "2 shortest 2 0 listed 2 agrees\nrows 1 agree 1 differ 0 unreachable 0 size 0\n"),
    ("rows M S --from 3", EMPTY),
    ("rows M S --from 2 --to 2", EMPTY),
    ("rows M S --from 0002 --to 1 --explain", EMPTY),
    ("bound M P", "cost 2 of 2 makespan 1 of 1\n"),
    ("bound --json M P", '{"cost":2,"cost_bound":2,"makespan":1,"makespan_bound":1}\n'),
    ("bound M P --agents", "agent 0 cost 1 of 1\nagent 1 cost 1 of 1\ncost 2 of 2 makespan 1 of 1\n"),
    ("bound M --agents P --json", BOUNDS_JSON),
    ("bound M O --agents", "cost 0 of 0 makespan 0 of 0\n"),
    ("check M P --all", ACCEPTED),
    ("check M --all P", ACCEPTED),
    ("check --all --json M P", JSON),
    ("check M P --all=1", ACCEPTED),
    ("check --all=4294967295 M P", ACCEPTED),
    ("check M P --no-rotation", ACCEPTED),
    ("check M P --bound", "accepted agents 2 cost 2 of 2 makespan 1 of 1\n"),
    ("check --bound --no-rotation --all M P --scen S", "accepted agents 2 cost 2 of 2 makespan 1 of 1\n"),
    ("check M P", ACCEPTED),
    ("check M P --json", JSON),
    ("check M --json P", JSON),
    ("check --json M P", JSON),
    ("check M P --scen S", ACCEPTED),
    ("check M --scen S P", ACCEPTED),
    ("check --scen S M P", ACCEPTED),
    ("check M P --scen=S", ACCEPTED),
    ("check M --scen=S P", ACCEPTED),
    ("check --scen=S M P", ACCEPTED),
    ("check M P --scen S --json", JSON),
    ("check M P --json --scen S", JSON),
    ("check --scen=S --json M P", JSON),
    ("check --json --scen=S M P", JSON),
    ("check M --scen S --json P", JSON),
    ("check --json M --scen=S P", JSON),
    ("check --scen S M --json P", JSON),
    ("check --scen S -- M P", ACCEPTED),
    ("check --json -- M P", JSON),
    ("check M P --scen=--scen", ACCEPTED),
    ("check M -- --json", ACCEPTED),
    ("check -- -h --json", ACCEPTED),
    ("check M P --agents 2", ACCEPTED),
    ("check --agents=2 M P", ACCEPTED),
    ("check M --agents 000000000000000002 P --json", JSON),
    ("check M P --agents 2 --scen S", ACCEPTED),
    ("check M O --agents 0", "accepted agents 0 cost 0 makespan 0\n"),
    ("deps M P", NEEDS),
    ("deps M -- --json", NEEDS),
    ("deps -- -h P", NEEDS),
    ("deps M P --cell 1 0", VISITS),
    ("deps M --cell 1 0 P", VISITS),
    ("deps --cell 1 0 M P", VISITS),
    ("deps --cell 1 0 -- M P", VISITS),
    ("deps M P --cell 000000000000000001 00", VISITS),
    ("deps M P --cell 2 0", "visit 0 1 1\n"),
    ("deps M P --cell 0 2", ""),
    ("deps M P --cell 65535 65535", ""),
    ("path M P", ROWS),
    ("path M -- --json", ROWS),
    ("path -- -h P", ROWS),
    ("path M P --agent 1", ROW_OF_1),
    ("path M --agent 1 P", ROW_OF_1),
    ("path --agent 1 M P", ROW_OF_1),
    ("path --agent=1 M P", ROW_OF_1),
    ("path --agent 1 -- M P", ROW_OF_1),
    ("path M P --agent 000000000000000001", ROW_OF_1),
    ("path M P --agent=0", "0 1 0\n1 2 0\n2 2 0\n"),
    ("path M O", ""),
    ("cut M P 0", CUT_AT_0),
    ("cut M P 1", CUT_AT_1),
    ("cut M -- --json 1", CUT_AT_1),
    ("cut -- -h P 1", CUT_AT_1),
    ("cut M P 000000000000000001", CUT_AT_1),
    ("cut M P 2", UNCUT),
    ("cut M P 65535", UNCUT),
    ("cut M P 65536", UNCUT),
    ("cut M P 4294967295", UNCUT),
    ("cut M P 1 --explain", CUT_AT_1),
    ("continues M P Q", CONTINUES),
    ("continues M -- --json Q", CONTINUES),
    ("continues -- -h P Q", CONTINUES),
    ("continues M P P", "continues from 2, adds 0 moves\n"),
    ("continues M O O", "continues from 0, adds 0 moves\n"),
    ("continues M P Q --explain", CONTINUES),
    ("continues --explain M P Q", CONTINUES),
    ("optimal M P F", OPTIMAL),
    ("optimal M P G", "optimal makespan 1 nodes 1\n"),
    ("optimal M -- --json F", OPTIMAL),
    ("optimal M P F --json", OPTIMAL_JSON),
    ("optimal --json M --explain P F", OPTIMAL_JSON),
    ("run M P E", "moving 2 0\n"),
    ("run M P -", "moving 2 0\n"),
    ("run -- -h --json -", "moving 2 0\n"),
    ("run M O E", "refused NoSuchAgent\n"),
    ("run M O E --complete", COMPLETE),
    ("run M O --complete E", COMPLETE),
    ("run M --complete O E", COMPLETE),
    ("run --complete M O E", COMPLETE),
    ("run --complete -- M O E", COMPLETE),
    ("run --complete -- -h O --complete", COMPLETE),
    ("run M O -- --complete", "refused NoSuchAgent\n"),
    ("agent M P 0 T", "at 1 0 done 0\n"),
    ("agent M P 0001 T", "at 0 0 done 0\n"),
    ("agent -- M P 1 T", "at 0 0 done 0\n"),
    ("agent M P 0 T --tape new", "at 1 0 done 0\n"),
    ("agent --tape=new M P 0 T", "at 1 0 done 0\n"),
    ("agent M P --tape new 0 T", "at 1 0 done 0\n"),
    ("scen S --explain", SCEN),
    ("row M --explain S 0", "shortest 1 0 listed 1 agrees\n"),
    ("check M P --explain --json", JSON),
    ("deps --explain M P --cell 2 0", "visit 0 1 1\n"),
    ("path M P --agent 1 --explain", ROW_OF_1),
    ("run M O E --complete --explain", COMPLETE),
    ("agent M P 0 T --tape new --explain", "at 1 0 done 0\n"),
    ("tape M P 0 K", KEPT),
    ("tape M P 0 K --explain", KEPT),
    ("tape -- M P 0001 K", "at 0 0 done 0\nrecords 0 torn 0\n"),
    ("status M P J%", STATES),
    ("status M P J% --explain", STATES),
    ("status --explain -- M P J%", STATES),
    ("status M --json P J%", STATES_JSON),
    ("status M O K%", ""),
    ("lost M P J% 0", PLACES),
    ("lost M P J% 00 --explain", PLACES),
    ("lost --explain -- M P J% 1", "at 0 0 done 0\n"),
    ("lost M -- P N% 1", "at 0 0 done 0\nat 1 0 done 1\n"),
    ("handover M P J%", CUT_AT_1),
    ("handover M P J% --explain", CUT_AT_1),
    ("handover --explain -- M P J%", CUT_AT_1),
    ("handover M -- --json J%", CUT_AT_1),
    ("handover M O N%", FILES["O"].decode()),
    ("anew M P J% 8", LEFT),
    ("anew M P J% 0008 --explain", LEFT),
    ("anew --explain -- M P J% 8", LEFT),
    ("anew M -- --json J% 8", LEFT),
    ("anew M P J% 0", LEFT.replace("8", "0")),
    ("anew M P J% 4294967295", LEFT.replace("8", "4294967295")),
    ("anew M P J% 8 --without 0", LEFT_WITHOUT_0),
    ("anew M --without=1 P J% 8", LEFT_WITHOUT_1),
    ("anew --without 0001 -- M P J% 8", LEFT_WITHOUT_1),
    ("anew M O N% 8", FILES["O"].decode().replace("7", "8")),
]

# Files in another order than the command has them, or one that is not there, and the fault that shows which was read as what.
OTHER_FILES = [
    ("map S", 1, "BadHeader 1"),
    ("scen M", 1, "NoVersion"),
    ("row S M 0", 1, "BadHeader 1"),
    ("row M M 0", 1, "NoVersion"),
    ("row M S 3", 1, "NoSuchRow"),
    ("row M S 9999", 1, "NoSuchRow"),
    ("row M S 10000", 1, "NoSuchRow"),
    ("row M S 65535", 1, "NoSuchRow"),
    ("row M S 65536", 1, "NoSuchRow"),
    ("row M S 4294967295", 1, "NoSuchRow"),
    ("row M S 000000004294967295", 1, "NoSuchRow"),
    ("check P M", 1, "BadHeader 1"),
    ("check M M", 1, "BadHeader 1"),
    ("check M P --scen M", 1, "NoVersion"),
    ("deps P M", 1, "BadHeader 1"),
    ("deps P M --cell 1 0", 1, "BadHeader 1"),
    ("rows P S", 1, "BadHeader 1"),
    ("rows M P", 1, "NoVersion"),
    ("rows P M --from 9", 1, "BadHeader 1"),
    ("rows M S --from 4", 1, "NoSuchRow"),
    ("rows M S --from 4 --to 2", 1, "NoSuchRow"),
    ("bound P M", 1, "BadHeader 1"),
    ("bound M M", 1, "BadHeader 1"),
    ("check M M --all", 1, "BadHeader 1"),
    ("path P M", 1, "BadHeader 1"),
    ("path M P --agent 2", 1, "NoSuchAgent"),
    ("path M O --agent 0", 1, "NoSuchAgent"),
    ("path M P --agent 9999", 1, "NoSuchAgent"),
    ("path M P --agent 10000", 1, "NoSuchAgent"),
    ("path M P --agent 65535", 1, "NoSuchAgent"),
    ("path P M --agent 2", 1, "BadHeader 1"),
    ("cut P M 0", 1, "BadHeader 1"),
    ("cut M M 0", 1, "BadHeader 1"),
    ("continues M Q P", 1, "Departs 0 4"),
    ("continues M O P", 1, "OtherCount"),
    ("continues P P Q", 1, "BadHeader 1"),
    ("continues M M Q", 1, "BadHeader 1"),
    ("continues M P M", 1, "BadHeader 1"),
    ("optimal M P P", 1, "BadHeader 1"),
    ("optimal M F F", 1, "BadHeader 1"),
    ("optimal F P F --json", 1, "BadHeader 1"),
    ("run P M E", 1, "BadHeader 1"),
    ("run M E P", 1, "BadHeader 1"),
    ("run M P P", 1, "NoHeader"),
    ("run P M E --complete", 1, "BadHeader 1"),
    ("run M P P --complete", 1, "NoHeader"),
    ("agent P M 0 T", 1, "BadHeader 1"),
    ("agent M P 2 T", 1, "NoSuchAgent"),
    ("agent M P 9999 T", 1, "NoSuchAgent"),
    ("agent M P 10000 T", 1, "NoSuchAgent"),
    ("agent M P 65535 T", 1, "NoSuchAgent"),
    ("agent M P 00065535 T", 1, "NoSuchAgent"),
    ("agent M P 0 P", 1, "TooLong"),
    ("map N", 3, "OpenFailed"),
    ("scen N", 3, "OpenFailed"),
    ("row N S 0", 3, "OpenFailed"),
    ("row M N 0", 3, "OpenFailed"),
    ("rows N S", 3, "OpenFailed"),
    ("rows M N", 3, "OpenFailed"),
    ("bound N P", 3, "OpenFailed"),
    ("bound M N", 3, "OpenFailed"),
    ("check N P", 3, "OpenFailed"),
    ("check M N", 3, "OpenFailed"),
    ("check M P --scen N", 3, "OpenFailed"),
    ("check S N", 3, "OpenFailed"),
    ("deps N P", 3, "OpenFailed"),
    ("deps M N", 3, "OpenFailed"),
    ("deps N P --cell 1 0", 3, "OpenFailed"),
    ("deps M N --cell 1 0", 3, "OpenFailed"),
    ("path N P", 3, "OpenFailed"),
    ("path M N", 3, "OpenFailed"),
    ("path M N --agent 0", 3, "OpenFailed"),
    ("cut N P 0", 3, "OpenFailed"),
    ("cut M N 0", 3, "OpenFailed"),
    ("continues N P Q", 3, "OpenFailed"),
    ("continues M N Q", 3, "OpenFailed"),
    ("continues M P N", 3, "OpenFailed"),
    ("continues S S N", 3, "OpenFailed"),
    ("optimal N P F", 3, "OpenFailed"),
    ("optimal M N F", 3, "OpenFailed"),
    ("optimal M P N", 3, "OpenFailed"),
    ("optimal S S N --json", 3, "OpenFailed"),
    ("run N P E", 3, "OpenFailed"),
    ("run M N E", 3, "OpenFailed"),
    ("run S S N", 3, "OpenFailed"),
    ("run S S N --complete", 3, "OpenFailed"),
    ("agent N P 0 T", 3, "OpenFailed"),
    ("agent M N 0 T", 3, "OpenFailed"),
    ("agent M P 0 no/T", 3, "OpenFailed"),
    ("agent M P 0 .", 3, "OpenFailed"),
    ("agent M P 2 no/T", 1, "NoSuchAgent"),
    ("agent M P 0 T --tape kept", 1, "NoTape"),
    ("agent M P 0 no/T --tape kept", 1, "NoTape"),
    ("agent M P 0 no/T --tape new", 3, "OpenFailed"),
    ("agent M P 0 . --tape kept", 3, "OpenFailed"),
    ("agent M P 2 T --tape kept", 1, "NoSuchAgent"),
    ("agent M P 0 /dev/null", 3, "OpenFailed"),
    ("tape P M 0 K", 1, "BadHeader 1"),
    ("tape M P 2 K", 1, "NoSuchAgent"),
    ("tape M P 65535 K", 1, "NoSuchAgent"),
    ("tape M P 0 P", 1, "TooLong"),
    ("tape N P 0 K", 3, "OpenFailed"),
    ("tape M N 0 K", 3, "OpenFailed"),
    ("tape M P 0 M/N", 3, "OpenFailed"),
    ("tape M P 0 N", 1, "NoTape"),
    ("tape M P 2 no/N", 1, "NoTape"),
    ("tape N P 0 N", 3, "OpenFailed"),
    ("status P M J%", 1, "BadHeader 1"),
    ("status N P J%", 3, "OpenFailed"),
    ("status M N J%", 3, "OpenFailed"),
    ("lost P M J% 0", 1, "BadHeader 1"),
    ("lost N P J% 0", 3, "OpenFailed"),
    ("lost M N J% 0", 3, "OpenFailed"),
    ("lost M P J% 2", 1, "NoSuchAgent"),
    ("lost M O N% 0", 1, "NoSuchAgent"),
    ("handover P M J%", 1, "BadHeader 1"),
    ("handover N P J%", 3, "OpenFailed"),
    ("handover M N J%", 3, "OpenFailed"),
    ("handover M P N%", 1, "BadTape 0"),
    ("handover M P J0%", 1, "BadTape 0"),
    ("handover M P M%N", 1, "BadTape 0"),
    ("anew P M J% 8", 1, "BadHeader 1"),
    ("anew N P J% 8", 3, "OpenFailed"),
    ("anew M N J% 8", 3, "OpenFailed"),
    ("anew M N J% 7 --without 9", 3, "OpenFailed"),
    ("anew M P N% 8", 1, "BadTape 0"),
    ("anew M P J0% 8", 1, "BadTape 0"),
    ("anew M P N% 8 --without 0", 1, "BadTape 1"),
    ("anew M P N% 7", 1, "SameNumber"),
    ("anew M P N% 000007 --without 1", 1, "SameNumber"),
    ("anew M P N% 7 --without 2", 1, "NoSuchAgent"),
    ("anew M P J% 8 --without 65535", 1, "NoSuchAgent"),
    ("anew M O N% 7", 1, "SameNumber"),
    ("anew M O N% 8 --without 0", 1, "NoSuchAgent"),
]

# Plans that are valid and rejected all the same, and why.
REJECTED = [
    ("check M P --agents 1", "AgentCount"),
    ("check M P --agents 3", "AgentCount"),
    ("check M P --agents 0", "AgentCount"),
    ("check M P --agents 65535", "AgentCount"),
    ("check M O --agents 1", "AgentCount"),
    # Rows are counted before agents, and agents before each row is looked at.
    ("check M P --agents 3 --scen S", "AgentCount"),
    ("check M P --scen S --agents 1", "AgentCount"),
    ("check M P --agents 4 --scen S", "TooFewRows"),
    ("check M O --agents 4 --scen S", "TooFewRows"),
]

# Words that are no command, each with what is named as wrong or missing, and how the command is used.
BAD = [
    ("", "subcommand", "Usage: mapf <COMMAND>"),
    ("chek", "'check'", "Usage: mapf <COMMAND>"),
    ("Map M", "'Map'", "Usage: mapf <COMMAND>"),
    ("version", "'version'", "Usage: mapf <COMMAND>"),
    ("--nope", "'--nope'", "Usage: mapf <COMMAND>"),
    ("-x", "'-x'", "Usage: mapf <COMMAND>"),
    ("--json check M P", "'--json'", "Usage: mapf <COMMAND>"),
    ("map", "<file>", "Usage: mapf map <file>"),
    ("map M M", "'M'", "Usage: mapf map [OPTIONS] <file>"),
    ("map -x", "'-x'", "Usage: mapf map [OPTIONS] <file>"),
    ("map M --json", "'--json'", "Usage: mapf map <file>"),
    ("map scen S", "'S'", "Usage: mapf map [OPTIONS] <file>"),
    ("scen", "<file>", "Usage: mapf scen <file>"),
    ("scen S S", "'S'", "Usage: mapf scen [OPTIONS] <file>"),
    ("row", "<map>", "Usage: mapf row"),
    ("row M", "<scen>", "Usage: mapf row"),
    ("row M S", "<row>", "Usage: mapf row"),
    ("row M S 0 1", "'1'", "Usage: mapf row"),
    ("row M 0 S", "'S'", "Usage: mapf row"),
    ("row M S 0 --scen S", "'--scen'", "Usage: mapf row"),
    ("row M S 4294967296", "'4294967296'", "a number from 0 to 4294967295"),
    ("row M S 18446744073709551616", "'18446744073709551616'", "a number from 0 to 4294967295"),
    ("row M S +1", "'+1'", "a number from 0 to 4294967295"),
    ("row M S -1", "'-1'", "Usage: mapf row"),
    ("row M S x1", "'x1'", "a number from 0 to 4294967295"),
    ("row M S 1.0", "'1.0'", "a number from 0 to 4294967295"),
    ("row M S 0x1", "'0x1'", "a number from 0 to 4294967295"),
    ("row M S \u0661", "'\u0661'", "a number from 0 to 4294967295"),
    ("check", "<map>", "Usage: mapf check"),
    ("check M", "<plan>", "Usage: mapf check"),
    ("check M P X", "'X'", "Usage: mapf check"),
    ("check M --scen S", "<plan>", "Usage: mapf check"),
    ("check M --json", "<plan>", "Usage: mapf check"),
    ("check M P --scen", "--scen", "--help"),
    ("check M P --scen --json", "--scen", "--help"),
    ("check M P --scen -x", "-x", "--help"),
    ("check M P --scen S T", "'T'", "Usage: mapf check"),
    ("check M P --scen S --scen S", "--scen", "Usage: mapf check"),
    ("check --scen=S M P --scen=S", "--scen", "Usage: mapf check"),
    ("check M P --json --json", "--json", "Usage: mapf check"),
    ("check M P --json=x", "--json", "Usage: mapf check"),
    ("check M P --nope", "--nope", "Usage: mapf check"),
    ("check M P --js", "--js", "Usage: mapf check"),
    ("check M P -j", "-j", "Usage: mapf check"),
    ("check M P -s S", "-s", "Usage: mapf check"),
    ("check M P --version", "--version", "Usage: mapf check"),
    ("check M P --agents", "'--agents <agents>'", "--help"),
    ("check M P --agents 2 --agents 2", "--agents", "Usage: mapf check"),
    ("check M P --agents -1", "'-1'", "--help"),
    ("check M P --agents 65536", "--agents", "from 0 to 65535"),
    ("check M P --agents 4294967298", "--agents", "from 0 to 65535"),
    ("check M P --agents two", "--agents", "from 0 to 65535"),
    ("check M P --all=0", "--all", "from 1 to 4294967295"),
    ("check M P --all=4294967296", "--all", "from 1 to 4294967295"),
    ("check M P --all=", "--all", "--help"),
    ("check M P --all=x", "--all", "from 1 to 4294967295"),
    ("check M P --all 5", "'5'", "Usage: mapf check"),
    ("check M P --all --all", "--all", "Usage: mapf check"),
    ("check M P --bound=1", "--bound", "Usage: mapf check"),
    ("check M P --no-rotations", "--no-rotations", "Usage: mapf check"),
    ("deps M P --all", "'--all", "Usage: mapf deps"),
    ("rows", "<map>", "Usage: mapf rows <map> <scen>"),
    ("rows M", "<scen>", "Usage: mapf rows <map> <scen>"),
    ("rows M S 0", "'0'", "Usage: mapf rows [OPTIONS] <map> <scen>"),
    ("rows M S --from", "'--from <from>'", "--help"),
    ("rows M S --from x", "--from", "from 0 to 4294967295"),
    ("rows M S --from 4294967296", "--from", "from 0 to 4294967295"),
    ("rows M S --to -1", "'-1'", "--help"),
    ("rows M S --to 1.0", "--to", "from 0 to 4294967295"),
    ("rows M S --json", "'--json'", "Usage: mapf rows"),
    ("bound", "<map>", "Usage: mapf bound <map> <plan>"),
    ("bound M", "<plan>", "Usage: mapf bound <map> <plan>"),
    ("bound M P --agents 2", "'2'", "Usage: mapf bound [OPTIONS] <map> <plan>"),
    ("bound M P --scen S", "'--scen'", "Usage: mapf bound"),
    ("path M P --agents 1", "'--agents'", "Usage: mapf path"),
    ("deps", "<map>", "Usage: mapf deps <map> <plan>"),
    ("deps M", "<plan>", "Usage: mapf deps <map> <plan>"),
    ("deps M P X", "'X'", "Usage: mapf deps [OPTIONS] <map> <plan>"),
    ("deps M P --json", "'--json'", "Usage: mapf deps"),
    ("deps M P --scen S", "'--scen'", "Usage: mapf deps"),
    ("map M --block", "'--block <X> <Y>'", "--help"),
    ("map M --block 1", "'--block <X> <Y>'", "--help"),
    ("map M --block=1 0", "'--block <X> <Y>'", "--help"),
    ("map M --block 1 0 2", "'2'", "Usage: mapf map"),
    ("map --block 1 0", "<file>", "Usage: mapf map"),
    ("map M --block 1 0 --block 2 0", "--block", "Usage: mapf map"),
    ("map M --block -1 0", "'-1'", "tip: a number from 0 on is wanted"),
    ("map M --block 65536 0", "--block", "two numbers from 0 to 65535"),
    ("map M --block 1 0x", "--block", "two numbers from 0 to 65535"),
    ("map M --cell 1 0", "'--cell'", "Usage: mapf map"),
    ("scen S --block 1 0", "'--block'", "Usage: mapf scen"),
    ("deps M P --cell", "'--cell <X> <Y>'", "--help"),
    ("deps M P --cell 1", "'--cell <X> <Y>'", "--help"),
    ("deps M P --cell=1 0", "'--cell <X> <Y>'", "--help"),
    ("deps M P --cell 1 0 2", "'2'", "Usage: mapf deps"),
    ("deps --cell M P", "<map>", "Usage: mapf deps"),
    ("deps M P --cell 1 0 --cell 1 0", "--cell", "Usage: mapf deps"),
    ("deps M P --cell -1 0", "'-1'", "--help"),
    ("deps M P --cell 65536 0", "--cell", "two numbers from 0 to 65535"),
    ("deps M P --cell 0 65536", "--cell", "two numbers from 0 to 65535"),
    ("deps M P --cell 4294967296 0", "--cell", "two numbers from 0 to 65535"),
    ("deps M P --cell +1 0", "--cell", "two numbers from 0 to 65535"),
    ("deps M P --cell 1 0x", "--cell", "two numbers from 0 to 65535"),
    ("deps M P --cell 1,0 0", "--cell", "two numbers from 0 to 65535"),
    ("deps M P --cell 1 \u0661", "--cell", "two numbers from 0 to 65535"),
    ("check M P --cell 1 0", "'--cell'", "Usage: mapf check"),
    ("path", "<map>", "Usage: mapf path <map> <plan>"),
    ("path M", "<plan>", "Usage: mapf path <map> <plan>"),
    ("path M P X", "'X'", "Usage: mapf path [OPTIONS] <map> <plan>"),
    ("path M P 0", "'0'", "Usage: mapf path [OPTIONS] <map> <plan>"),
    ("path M P --cell 1 0", "'--cell'", "Usage: mapf path"),
    ("path M P --agent", "'--agent <agent>'", "--help"),
    ("path --agent M P", "<plan>", "Usage: mapf path"),
    ("path M P --agent 0 1", "'1'", "Usage: mapf path"),
    ("path M P --agent 0 --agent 0", "--agent", "Usage: mapf path"),
    ("path M P --agent -1", "'-1'", "--help"),
    ("path M P --agent 65536", "--agent", "from 0 to 65535"),
    ("path M P --agent 131072", "--agent", "from 0 to 65535"),
    ("path M P --agent 4294967296", "--agent", "from 0 to 65535"),
    ("path M P --agent +1", "--agent", "from 0 to 65535"),
    ("path M P --agent 1x", "--agent", "from 0 to 65535"),
    ("path M P --agent 1.0", "--agent", "from 0 to 65535"),
    ("path M P --agent \u0661", "--agent", "from 0 to 65535"),
    ("path M P -a 0", "-a", "Usage: mapf path"),
    ("cut", "<map>", "Usage: mapf cut <map> <plan> <time>"),
    ("cut M", "<plan>", "Usage: mapf cut <map> <plan> <time>"),
    ("cut M P", "<time>", "Usage: mapf cut <map> <plan> <time>"),
    ("cut M P 0 1", "'1'", "Usage: mapf cut [OPTIONS] <map> <plan> <time>"),
    ("cut M P -1", "'-1'", "--help"),
    ("cut M P +1", "'+1'", "from 0 to 4294967295"),
    ("cut M P 1x", "'1x'", "from 0 to 4294967295"),
    ("cut M P 4294967296", "'4294967296'", "from 0 to 4294967295"),
    ("cut M P --agent 0 1", "'--agent'", "Usage: mapf cut"),
    ("continues", "<map>", "Usage: mapf continues <map> <old> <new>"),
    ("continues M", "<old>", "Usage: mapf continues <map> <old> <new>"),
    ("continues M P", "<new>", "Usage: mapf continues <map> <old> <new>"),
    ("continues M P Q Q", "'Q'", "Usage: mapf continues [OPTIONS] <map> <old> <new>"),
    ("continues M P Q --json", "'--json'", "Usage: mapf continues"),
    ("optimal", "<map>", "Usage: mapf optimal <map> <plan> <proof>"),
    ("optimal M", "<plan>", "Usage: mapf optimal <map> <plan> <proof>"),
    ("optimal M P", "<proof>", "Usage: mapf optimal <map> <plan> <proof>"),
    ("optimal M P F F", "'F'", "Usage: mapf optimal [OPTIONS] <map> <plan> <proof>"),
    ("optimal M P F --bound", "'--bound'", "Usage: mapf optimal"),
    ("deps M P --agent 0", "'--agent'", "Usage: mapf deps"),
    ("agent M P 0 T --agent 0", "'--agent'", "Usage: mapf agent"),
    ("run", "<map>", "Usage: mapf run"),
    ("run M", "<plan>", "Usage: mapf run"),
    ("run M P", "<events>", "Usage: mapf run"),
    ("run M P E X", "'X'", "Usage: mapf run"),
    ("run M P E --json", "'--json'", "Usage: mapf run"),
    ("run M P --complete", "<events>", "Usage: mapf run"),
    ("run M P E X --complete", "'X'", "Usage: mapf run"),
    ("run M P E --complete --complete", "--complete", "Usage: mapf run"),
    ("run M P E --complete=x", "--complete", "Usage: mapf run"),
    ("run M P E --comp", "--comp", "Usage: mapf run"),
    ("run M P E -c", "-c", "Usage: mapf run"),
    ("--complete run M P E", "'--complete'", "Usage: mapf <COMMAND>"),
    ("check M P --complete", "'--complete'", "Usage: mapf check"),
    ("deps M P --complete", "'--complete'", "Usage: mapf deps"),
    ("agent M P 0 T --complete", "'--complete'", "Usage: mapf agent"),
    ("agent", "<map>", "Usage: mapf agent <map> <plan> <id> <file>"),
    ("agent M P 0", "<file>", "Usage: mapf agent <map> <plan> <id> <file>"),
    ("agent M P 0 T X", "'X'", "Usage: mapf agent [OPTIONS] <map> <plan> <id> <file>"),
    ("agent M P T 0", "'T'", "Usage: mapf agent [OPTIONS] <map> <plan> <id> <file>"),
    ("agent M P 0 T --json", "'--json'", "Usage: mapf agent"),
    ("agent M P 65536 T", "'65536' for '<id>'", "Usage: mapf agent [OPTIONS] <map> <plan> <id> <file>"),
    ("agent M P 0 T --tape", "'--tape <tape>'", "--help"),
    ("agent M P 0 T --tape old", "'--tape <tape>'", "new or kept"),
    ("agent M P 0 T --tape New", "'--tape <tape>'", "new or kept"),
    ("agent M P 0 T --tape new --tape kept", "--tape", "Usage: mapf agent"),
    ("agent M P 0 T --new", "'--new'", "Usage: mapf agent"),
    ("run M P E --tape new", "'--tape'", "Usage: mapf run"),
    ("agent M P 131072 T", "'131072'", "from 0 to 65535"),
    ("agent M P 4294967296 T", "'4294967296'", "from 0 to 65535"),
    ("agent M P 1x T", "'1x'", "from 0 to 65535"),
    ("tape", "<map>", "Usage: mapf tape <map> <plan> <id> <file>"),
    ("tape M P 0", "<file>", "Usage: mapf tape <map> <plan> <id> <file>"),
    ("tape M P 0 K X", "'X'", "Usage: mapf tape [OPTIONS] <map> <plan> <id> <file>"),
    ("tape M P 65536 K", "'65536' for '<id>'", "Usage: mapf tape [OPTIONS] <map> <plan> <id> <file>"),
    ("tape M P 0 K --tape new", "'--tape'", "Usage: mapf tape"),
    ("status", "<map>", "Usage: mapf status <map> <plan> <tapes>"),
    ("status M P", "<tapes>", "Usage: mapf status <map> <plan> <tapes>"),
    ("status M P J", "'<tapes>': a name with % ", "Usage: mapf <status|lost|handover|anew> <map> <plan> <tapes>"),
    ("handover M P tape0", "'<tapes>': a name with % ", "--help"),
    ("anew M P J 8", "'<tapes>': a name with % ", "--help"),
    ("check M P --scen -s", "'-s'", "Usage: mapf check"),
    ("status M P J0 J1", "'J1'", "Usage: mapf status [OPTIONS] <map> <plan> <tapes>"),
    ("status M P J% --agent 0", "'--agent'", "Usage: mapf status"),
    ("lost", "<map>", "Usage: mapf lost <map> <plan> <tapes> <id>"),
    ("lost M P J%", "<id>", "Usage: mapf lost <map> <plan> <tapes> <id>"),
    ("lost M P J% 0 1", "'1'", "Usage: mapf lost [OPTIONS] <map> <plan> <tapes> <id>"),
    ("lost M P J 0", "'<tapes>': a name with % ", "--help"),
    ("lost M P J% 65536", "'65536' for '<id>'", "Usage: mapf lost [OPTIONS] <map> <plan> <tapes> <id>"),
    ("lost M P J% x", "'x'", "from 0 to 65535"),
    ("lost M P J% -1", "'-1'", "tip: a number from 0 on is wanted"),
    ("handover", "<map>", "Usage: mapf handover <map> <plan> <tapes>"),
    ("handover M P", "<tapes>", "Usage: mapf handover <map> <plan> <tapes>"),
    ("handover M P J0 J1", "'J1'", "Usage: mapf handover [OPTIONS] <map> <plan> <tapes>"),
    ("handover M P J% --without 0", "'--without'", "Usage: mapf handover"),
    ("anew", "<map>", "Usage: mapf anew <map> <plan> <tapes> <number>"),
    ("anew M P J%", "<number>", "Usage: mapf anew <map> <plan> <tapes> <number>"),
    ("anew M P J% 8 9", "'9'", "Usage: mapf anew [OPTIONS] <map> <plan> <tapes> <number>"),
    ("anew M P J% new", "'new'", "from 0 to 4294967295"),
    ("anew M P J% 4294967296", "'4294967296'", "from 0 to 4294967295"),
    ("anew M P J% -1", "'-1'", "--help"),
    ("anew M P J% +1", "'+1'", "from 0 to 4294967295"),
    ("anew M P J% 8 --without", "'--without <without>'", "--help"),
    ("anew M P J% 8 --without 65536", "--without", "from 0 to 65535"),
    ("anew M P J% 8 --without 1x", "--without", "from 0 to 65535"),
    ("anew M P J% 8 --without -1", "'-1'", "--help"),
    ("anew M P J% 8 --without 0 --without 1", "--without", "Usage: mapf anew"),
    ("anew M P J% 8 --number 9", "'--number'", "Usage: mapf anew"),
    ("--explain map M", "'--explain'", "Usage: mapf <COMMAND>"),
    ("map M --explain --explain", "--explain", "Usage: mapf map"),
    ("map M --explain=x", "--explain", "Usage: mapf map"),
]


def refusal(why: str, usage: str = "") -> bytes:
    """What is told of words that are no command."""
    used = f"Usage: mapf {usage}\n\n" if usage else ""
    return f"error: {why}\n\n{used}For more information, try '--help'.\n".encode()


# What is told in full.
WHOLE = {
    "": refusal("'mapf' requires a subcommand but one was not provided\n  [subcommands: map, scen, row, rows, check, bound, deps, path, cut, continues, optimal, run, agent, tape, status, lost, handover, anew, help]", "<COMMAND>"),
    "zzz": refusal("unrecognized subcommand 'zzz'", "<COMMAND>"),
    # Clap's own advice, by another measure.
    "mapp_": refusal("unrecognized subcommand 'mapp_'\n\n  tip: a similar subcommand exists: 'map'", "<COMMAND>"),
    "chek": refusal("unrecognized subcommand 'chek'\n\n  tip: a similar command exists: 'check'", "<COMMAND>"),
    "dep": refusal("unrecognized subcommand 'dep'\n\n  tip: a similar command exists: 'deps'", "<COMMAND>"),
    "agentt": refusal("unrecognized subcommand 'agentt'\n\n  tip: a similar command exists: 'agent'", "<COMMAND>"),
    "rub M P E": refusal("unrecognized subcommand 'rub'\n\n  tip: a similar command exists: 'run'", "<COMMAND>"),
    "hceck": refusal("unrecognized subcommand 'hceck'\n\n  tip: a similar command exists: 'check'", "<COMMAND>"),
    "apth": refusal("unrecognized subcommand 'apth'\n\n  tip: a similar command exists: 'path'", "<COMMAND>"),
    "tap": refusal("unrecognized subcommand 'tap'\n\n  tip: some similar commands exist: 'map', 'tape'", "<COMMAND>"),
    "help chek": refusal("unrecognized subcommand 'chek'\n\n  tip: a similar command exists: 'check'", "<COMMAND>"),
    "help BadTerain": refusal("unrecognized subcommand 'BadTerain'", "<COMMAND>"),
    "row M S -1": refusal("unexpected argument '-1' found\n\n  tip: a number from 0 on is wanted", "row [OPTIONS] <map> <scen> <row>"),
    "scen -1": refusal("unexpected argument '-1' found\n\n  tip: to pass '-1' as a value, use '-- -1'", "scen [OPTIONS] <file>"),
    "map": refusal("the following required arguments were not provided:\n  <file>", "map <file>"),
    "map M M": refusal("unexpected argument 'M' found", "map [OPTIONS] <file>"),
    "run M P": refusal("the following required arguments were not provided:\n  <events>", "run <map> <plan> <events>"),
    "check M P --scen": refusal("a value is required for '--scen <scen>' but none was supplied"),
    "check M P --json --json": refusal("the argument '--json' cannot be used multiple times", "check [OPTIONS] <map> <plan>"),
    "check M P --agents 2x": refusal("invalid value for '--agents <agents>': a number from 0 to 65535 is wanted, in digits alone", "check [OPTIONS] <map> <plan>"),
    "row M S 1x": refusal("invalid value '1x' for '<row>': a number from 0 to 4294967295 is wanted, in digits alone", "row [OPTIONS] <map> <scen> <row>"),
    "deps M P --cell 1": refusal("2 values required for '--cell <X> <Y>' but 1 was provided", "deps [OPTIONS] <map> <plan>"),
    "map M --block 1 x": refusal(
        "invalid value for '--block <X> <Y>': two numbers from 0 to 65535 are wanted, in digits alone", "map [OPTIONS] <file>"
    ),
    "deps M P --cell 1 x": refusal(
        "invalid value for '--cell <X> <Y>': two numbers from 0 to 65535 are wanted, in digits alone", "deps [OPTIONS] <map> <plan>"
    ),
    "path M P --agent 1x": refusal(
        "invalid value for '--agent <agent>': the number of an agent, from 0 to 65535, is wanted, in digits alone", "path [OPTIONS] <map> <plan>"
    ),
    "agent M P 65536 T": refusal(
        "invalid value '65536' for '<id>': the number of an agent, from 0 to 65535, is wanted, in digits alone", "agent [OPTIONS] <map> <plan> <id> <file>"
    ),
    "anew M P J% 8 --without 1x": refusal(
        "invalid value for '--without <without>': the number of an agent, from 0 to 65535, is wanted, in digits alone", "anew [OPTIONS] <map> <plan> <tapes> <number>"
    ),
    "agent M P 0 T --tape old": refusal("invalid value for '--tape <tape>': new or kept is wanted", "agent [OPTIONS] <map> <plan> <id> <file>"),
}

# Words with bytes that would move the cursor, and how they are shown.
MOVING = [
    (["a\x1b[2Jb"], "unrecognized subcommand 'a\\x1b[2Jb'"),
    (["ma\n"], "unrecognized subcommand 'ma\\x0a'\n\n  tip: a similar command exists: 'map'"),
    (["row", "M", "S", "1\x7f\t"], "invalid value '1\\x7f\\x09' for '<row>'"),
    (["map", "M", "--j\x1b"], "unexpected argument '--j\\x1b' found"),
    (["map", "M", "--explain=\r"], "unexpected value '\\x0d' for '--explain' found"),
    (["map", "M", "\n\n"], "unexpected argument '\\x0a\\x0a' found"),
]

# Words that hold blanks or nothing where that is no command, and more words than any command has.
ODD = [
    ["row", "M", "S", ""],
    ["row", "M", "S", " 1"],
    ["row", "M", "S", "1 "],
    ["row", "M", "S", "1\n"],
    ["deps", "M", "P", "--cell", "", "0"],
    ["deps", "M", "P", "--cell", "1", " 0"],
    ["deps", "M", "P", "--cell", "1 0"],
    ["path", "M", "P", "--agent", ""],
    ["path", "M", "P", "--agent", " 0"],
    ["anew", "M", "P", "J%", " 8"],
    ["anew", "M", "P", "J%", "8", "--without", ""],
    ["agent", "M", "P", "", "T"],
    ["agent", "M", "P", "0 ", "T"],
    ["agent", "M", "P", "0", "T", "--tape", ""],
    ["agent", "M", "P", "0", "T", "--tape", "new "],
    [" map", "M"],
    ["map ", "M"],
    ["map", "M", ""],
    ["check", "M", "P", "--json "],
    ["map", *["word"] * 5000],
]

# Words that are no text: a byte that begins nothing, one that goes on from nothing, characters that are cut off, too long, beyond the last
# one or half of a pair.
NO_TEXT = [
    *(b"\xff", b"\x80", b"M\xc3", b"\xe6\x97", b"\xf0\x9d\x84", b"\xc0\x80", b"\xe0\x80\x80", b"\xf4\x90\x80\x80", b"\xed\xa0\x80"),
    b"n" * 4096 + b"\xff",
]
# Where such a word stands.
PLACES = [
    *([], [b"map"], [b"map", b"--"], [b"row", b"M", b"S"], [b"check", b"M", b"P", b"--scen"], [b"agent", b"M", b"P"], [b"agent", b"M", b"P", b"0"]),
    *([b"help"], [b"map", b"M"], [b"map", b"no"]),
]

# Names of files: blanks and line ends at both ends, characters beyond ASCII, and some that mean something elsewhere.
NAMES = [
    *(" M", "M ", " M ", "\tM", "M\t", "M\n", "\nM", "M\r\n", "M\r", "M\v", "M\u00a0", "\u2003M", "M\u200b", "\ufeffM", " ", "\t", "\n", "\u00a0"),
    *("\u00e9", "e\u0301", "\u5730\u56f3", "\U0001d11e", "\u0130", "\u00df", "\x01", "\x7f"),
    *("'M'", '"M"', "$M", "~", "\\M", "M*", "%4d", "%s", "{}", "{M}", "=", "M=", "@M"),
]
# The longest name in a folder, path and word that the system takes.
LONGEST_NAME, LONGEST_PATH, LONGEST_WORD = 255, 4_095, 131_071


def commands(harness: Harness) -> Iterator[Outcome]:
    for line, due in COMMANDS:
        folder = harness.folder({**FILES, **NAMED_AS_OPTIONS})
        yield ended_as(line, f"mapf {line}", harness.mapf(line.split(), folder=folder), Ended(0, due.encode(), b""))
    for line, status, fault in OTHER_FILES:
        folder = harness.folder(FILES)
        ended = harness.mapf(line.split(), folder=folder)
        yield ended_as(line, f"mapf {line}", ended, Ended(status, b"", f"mapf: {fault}\n".encode()))
        # An explanation follows the line.
        explained = harness.mapf([*line.split(), "--explain"], folder=harness.folder(FILES))
        wrote = (explained.status, explained.out, explained.err[: len(ended.err)])
        yield compared(f"{line} --explain", f"mapf {line} --explain", wrote, (status, b"", ended.err))
    for line, fault in REJECTED:
        yield ended_as(line, f"mapf {line}", harness.mapf(line.split(), folder=harness.folder(FILES)), Ended(1, f"rejected {fault}\n".encode(), b""))


def inputs(harness: Harness) -> Iterator[Outcome]:
    """Standard input is a map or a scenario where its file is `-`, and no file of this name is read."""
    folder = harness.folder({**FILES, "-": b"another file"})
    for words, text, due in (
        (["map", "-"], FILES["M"], Ended(0, MAP.encode(), b"")),
        (["scen", "-"], FILES["S"], Ended(0, SCEN.encode(), b"")),
        (["map", "--", "-"], FILES["M"], Ended(0, MAP.encode(), b"")),
        (["map", "-"], b"", Ended(1, b"", b"mapf: BadHeader 1\n")),
        (["map", "./-"], FILES["M"], Ended(1, b"", b"mapf: BadHeader 1\n")),
        (["scen", "./-"], FILES["S"], Ended(1, b"", b"mapf: NoVersion\n")),
        (["row", "M", "-", "0"], FILES["S"], Ended(1, b"", b"mapf: NoVersion\n")),
    ):
        yield ended_as(f"{words} of {len(text)} bytes", shown(["mapf", *words]), harness.mapf(words, text, folder=folder), due)


def bad_lines(harness: Harness) -> Iterator[Outcome]:
    folder = harness.folder(FILES)
    for line, named, usage in BAD:
        ended = harness.mapf(line.split(" ") if line else [], folder=folder)
        told = ended.err.decode()
        well = (ended.status, ended.out) == (2, b"") and told.startswith("error: ") and all(it in told for it in (named, usage, "--help"))
        wrote = (ended.status, ended.out, told)
        due = wrote if well else f"status 2, and on standard error `error: ` with {named!r}, {usage!r} and '--help'"
        yield compared(line, f"mapf {line}", wrote, due)
    for line, told in WHOLE.items():
        yield ended_as(line, f"mapf {line}", harness.mapf(line.split(), folder=folder), Ended(2, b"", told))
    for words, told in MOVING:
        ended = harness.mapf(words, folder=folder)
        wrote = (ended.status, ended.out, ended.err.decode())
        well = wrote[:2] == (2, b"") and wrote[2].startswith(f"error: {told}")
        yield compared(f"{words}", shown(["mapf", *words]), wrote, wrote if well else f"status 2, and `error: {told}`")
    for words in ODD:
        ended = harness.mapf(words, folder=folder)
        yield compared(str(words[:4]), shown(["mapf", *words[:4]]), (ended.status, ended.out, ended.err[:7]), (2, b"", b"error: "))
    # No text, wherever it stands, is told before anything else.
    no_text = Ended(2, b"", refusal("a word of the command line is not UTF-8"))
    for words in [*([*place, NO_TEXT[0]] for place in PLACES), *([b"map", word] for word in NO_TEXT), [b"chek", b"\xff", b"more"]]:
        ended = harness.run([bytes(harness.program), *words], folder=folder)
        yield ended_as(f"no text: {words}"[:80], f"mapf {words}"[:400], ended, no_text)


def names(harness: Harness) -> Iterator[Outcome]:
    """A file's name is its word, to the last byte. A file of the name without its blanks is another one."""

    def called(words: Sequence[str], files: Mapping[str, bytes], due: str) -> Outcome:
        folder = harness.folder({**{name.strip(): b"another file" for name in files if name.strip()}, **files})
        return ended_as(str(words), shown(["mapf", *words]), harness.mapf(words, folder=folder), Ended(0, due.encode(), b""))

    for name in NAMES:
        yield called(["map", name], {name: FILES["M"]}, MAP)
        yield called(["check", name, "P", f"--scen=S{name}"], {name: FILES["M"], "P": FILES["P"], f"S{name}": FILES["S"]}, ACCEPTED)
    files = {"map ": FILES["M"], "plan\n": FILES["P"], "\tscen ": FILES["S"], " events": FILES["E"]}
    for words, due in (
        (["scen", "\tscen "], SCEN),
        (["row", "map ", "\tscen ", "2"], "shortest 2 0 listed 2 agrees\n"),
        (["check", "map ", "plan\n", "--scen", "\tscen "], ACCEPTED),
        (["deps", "map ", "plan\n"], NEEDS),
        (["path", "map ", "plan\n"], ROWS),
        (["run", "map ", "plan\n", " events"], "moving 2 0\n"),
    ):
        yield called(words, files, due)
    folder = harness.folder(files)
    for tape in (" T ", "T\n", "\u00e9\t"):
        words = ["agent", "map ", "plan\n", "0", tape]
        yield ended_as(f"a tape {tape!r}", shown(["mapf", *words]), harness.mapf(words, folder=folder), Ended(0, b"at 1 0 done 0\n", b""))
        yield compared(f"a tape {tape!r} is made", shown(["mapf", *words]), (folder / tape).exists(), True)
    yield compared("nothing else is made", "mapf agent", len(list(folder.iterdir())), len(files) + 3)


def long_names(harness: Harness) -> Iterator[Outcome]:
    """Names and paths up to the longest that the system takes, and words of any length beyond."""
    greatest = {"n" * LONGEST_NAME: FILES["M"], "\u00e9" * (LONGEST_NAME // 2): FILES["M"]}
    folder = harness.folder({**FILES, **greatest})
    refused = Ended(3, b"", b"mapf: OpenFailed\n")

    def path(size: int, name: str) -> str:
        return "." + "/" * (size - 1 - len(name)) + name

    def ended(name: str, words: Sequence[str], due: Ended) -> Outcome:
        return ended_as(name, shown(["mapf", *words]), harness.mapf(words, folder=folder), due)

    for name in greatest:
        yield ended(f"a name of {len(name.encode())} bytes", ["map", name], Ended(0, FILES["M"], b""))
    yield ended("a name of a byte more", ["map", "n" * (LONGEST_NAME + 1)], refused)
    for size in (LONGEST_PATH - 1, LONGEST_PATH):
        long = {name: path(size, name) for name in "MPSET"}
        for words, due in (
            (["map", long["M"]], MAP),
            (["check", long["M"], long["P"], f"--scen={long['S']}"], ACCEPTED),
            (["run", long["M"], long["P"], long["E"]], "moving 2 0\n"),
            (["agent", long["M"], long["P"], "0", long["T"]], "at 1 0 done 0\n"),
        ):
            yield ended(f"{words[0]}, paths of {size} bytes", words, Ended(0, due.encode(), b""))
    for size in (LONGEST_PATH + 1, LONGEST_PATH + 2, 2 * LONGEST_PATH, LONGEST_WORD):
        for words in (
            *(["map", path(size, "M")], ["scen", path(size, "S")], ["row", "M", path(size, "S"), "0"], ["check", "M", "P", "--scen", path(size, "S")]),
            *(["deps", "M", path(size, "P")], ["run", "M", "P", path(size, "E")], ["agent", "M", "P", "0", path(size, "T")], ["map", "n" * size]),
        ):
            yield ended(f"{words[0]}, a path of {size} bytes", words, refused)


def outcomes(harness: Harness) -> Iterator[Outcome]:
    yield from commands(harness)
    yield from inputs(harness)
    yield from bad_lines(harness)
    yield from names(harness)
    yield from long_names(harness)
    yield from helps.outcomes(harness)
