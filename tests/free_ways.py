"""How far an agent says that its way is free, beside the plain model of a run: agents that hear some of what others have finished, drive on, and are asked at
each turn."""
import random
from typing import Iterator

from harness import Harness, Outcome
from random_runs import random_map, random_plan
from run_model import Agent, agents_of

SEEDS = range(1, 121)
# So many moves at the most are asked for.
MOSTS = (0, 1, 2, 3, 7, 65_535, 4_294_967_295)
# Lines that ask for nothing: numbers have no leading zeros, and are below 2 to the 32nd.
BAD = ("may", "may ", "may 01", "may -1", "may +1", "may 1 ", "may  1", "may 1 2", "may 4294967296", "may x", "May 1", f"may {'9' * 70_000}")


def free_moves(agent: Agent, most: int) -> int:
    """How many of the moves behind the ones that are begun wait for nobody, one after another, by what the agent has heard."""
    begun, count = (agent.records + 1) // 2, 0
    while count < most and begun + count < len(agent.needs) and not agent.waits_for(begun + count):
        count += 1
    return count


def turns_of(rng: random.Random, agents: list[Agent], own: int) -> Iterator[tuple[str, str]]:
    """Lines for an agent, with the answers that are due."""
    agent = agents[own]
    for _ in range(40):
        if rng.random() < 0.6:
            other = rng.randrange(len(agents))
            done = rng.randint(0, len(agents[other].needs))
            agent.heard[other] = max(done, agent.heard.get(other, 0))
            yield f"hear 4601{other:04x}00000007{done:08x}", f"heard {other} {agent.heard[other]}"
        elif rng.random() < 0.5:
            yield "start", agent.start()
        else:
            yield "finish", agent.finish()
        most = rng.choice(MOSTS)
        yield f"may {most}", f"may {free_moves(agent, most)}"


def talk(harness: Harness, name: str, texts: tuple[str, str], own: int, turns: list[tuple[str, str]]) -> Outcome:
    folder = harness.folder({"M": texts[0].encode(), "P": texts[1].encode()})
    ended = harness.mapf(["agent", "M", "P", str(own), "T"], "".join(f"{line}\n" for line, _ in turns).encode(), folder)
    found = ended.out.decode("latin-1").splitlines()[1:]
    for (line, due), answer in zip(turns, found):
        if answer != due:
            return Outcome(name, f"ran    mapf agent M P {own} T, {line[:40]}\n    wrote  {answer}\n    due    {due}")
    is_whole = (ended.status, ended.err, len(found)) == (0, b"", len(turns))
    return Outcome(name, "" if is_whole else f"ran    mapf agent M P {own} T\n    wrote  {len(found)} answers to {len(turns)} lines, status {ended.status}")


def outcomes(harness: Harness) -> Iterator[Outcome]:
    for seed in SEEDS:
        rng = random.Random(seed)
        map_text, free = random_map(rng)
        plan_text = random_plan(rng, free, may_turn=False)
        agents = agents_of(plan_text)
        own = rng.randrange(len(agents))
        yield talk(harness, f"a way that is free, seed {seed}", (map_text, plan_text), own, list(turns_of(rng, agents, own)))
    yield talk(harness, "lines that ask for no free way", (map_text, plan_text), own, [(line, "refused BadLine") for line in BAD])
