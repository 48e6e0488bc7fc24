"""Verdicts on plans: whether a plan is valid, what it costs, what such plans cost at least, and whether a proof shows that it is the best."""
import dataclasses
import itertools
import json
from typing import Any, Mapping, Optional, Union

from mapf.faults import Failed, FaultWords, read_words
from mapf.program import AnyProgram, File, files, flag, number, option, program_at


@dataclasses.dataclass(frozen=True)
class Verdict:
    """What is said of a plan. Where it is accepted there are numbers; else the faults, the least one first, of which all are listed where that was
    asked, with how many agents they name."""

    accepted: bool
    agents: Optional[int] = None
    cost: Optional[int] = None
    makespan: Optional[int] = None
    cost_bound: Optional[int] = None
    makespan_bound: Optional[int] = None
    faults: tuple[FaultWords, ...] = ()
    faulty_agents: Optional[int] = None
    has_more: bool = False

    @property
    def fault(self) -> Optional[FaultWords]:
        """The least fault."""
        return self.faults[0] if self.faults else None


@dataclasses.dataclass(frozen=True)
class Bound:
    """What something costs, and what it costs at least."""

    cost: int
    bound: int


@dataclasses.dataclass(frozen=True)
class Bounds:
    """The sum of costs, the makespan, and the costs of each agent where they were asked for."""

    cost: Bound
    makespan: Bound
    agents: tuple[Bound, ...] = ()


@dataclasses.dataclass(frozen=True)
class Optimality:
    """What a proof shows: no plan has a lesser `objective`, `cost` or `makespan`, than the bound. One that shows nothing has a fault."""

    is_optimal: bool = False
    objective: str = ""
    value: Optional[int] = None
    bound: Optional[int] = None
    nodes: Optional[int] = None
    fault: Optional[FaultWords] = None


def read_object(text: str) -> dict[str, Any]:
    """The one object of JSON that an answer is."""
    try:
        found = json.loads(text)
    except ValueError:
        found = None
    if not isinstance(found, dict):
        raise Failed(f"'{text[:80].rstrip()}' is no answer of mapf")
    return found


def listed_words(fault: Mapping[str, Any]) -> FaultWords:
    """The words of a fault that is listed as an object: its kind and its numbers, in their order."""
    kind, *numbers = itertools.chain.from_iterable(it if isinstance(it, list) else [it] for it in fault.values())
    return FaultWords(kind, tuple(numbers))


def verdict_of(found: Mapping[str, Any]) -> Verdict:
    """The verdict that an object has."""
    if found["accepted"]:
        return Verdict(**found)
    if "fault" in found:
        return Verdict(False, faults=(read_words(found["fault"]),))
    return Verdict(False, faults=tuple(map(listed_words, found["faults"])), faulty_agents=found["agents"], has_more=found["more"])


def check(
    map: File,
    plan: File,
    *,
    scen: Optional[File] = None,
    agents: Optional[int] = None,
    bound: bool = False,
    no_rotation: bool = False,
    all: Union[int, bool, None] = None,
    program: AnyProgram = None,
) -> Verdict:
    """What `mapf check` says of a plan: perhaps that it has so many agents and solves a scenario, what such plans cost at least, that it has no
    rotation, and all its faults, or so many. A plan that is rejected is a verdict, and a text that is none a `Fault`."""
    listed = flag("all", all is True) if all is None or isinstance(all, bool) else option("all", int(number(all, 1)))
    words = [*option("scen", scen), *option("agents", agents), *flag("bound", bound), *flag("no-rotation", no_rotation), *listed]
    return verdict_of(read_object(program_at(program).answer("check", "--json", *words, *files(map, plan))))


def bound(map: File, plan: File, *, agents: bool = False, program: AnyProgram = None) -> Bounds:
    """What `mapf bound` says that a plan costs, and costs at least; with `agents` of each agent too."""
    found = read_object(program_at(program).answer("bound", "--json", *flag("agents", agents), *files(map, plan)))
    own = tuple(Bound(it["cost"], it["bound"]) for it in found.get("agents", ()))
    return Bounds(Bound(found["cost"], found["cost_bound"]), Bound(found["makespan"], found["makespan_bound"]), own)


def optimal(map: File, plan: File, proof: File, *, program: AnyProgram = None) -> Optimality:
    """What `mapf optimal` says of a proof. A proof that is refused is an answer, and a text that is none a `Fault`."""
    found = read_object(program_at(program).answer("optimal", "--json", *files(map, plan, proof)))
    if "refused" in found:
        return Optimality(fault=read_words(found["refused"]))
    objective = "cost" if "cost" in found else "makespan"
    return Optimality(found["optimal"], objective, found[objective], found["bound"], found["nodes"])
