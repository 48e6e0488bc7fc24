"""The networks of examples/fleet/network.sh: how they are made, driven on and taken down."""
import functools
import os
import re
import shutil
import signal
import subprocess
from typing import Callable, Iterator, Sequence

import boxes
from harness import ROOT, Ended, Harness, Outcome, compared, ended_as, put_program, shown
from processes import heeding, left_in, processes_of, wait_until

NETWORK = ROOT / "examples" / "fleet" / "network.sh"
NETEM = """ip netns add HUB
ip -n HUB link add bridge type bridge mcast_snooping 0
ip -n HUB link add link1 type veth peer name link netns P1
ip -n HUB link set link1 master bridge up
ip -n P1 address add 10.77.0.2/24 dev link
tc -n HUB qdisc add dev link1 root netem limit 10000 delay 110ms 90ms loss 30% duplicate 10%
ip netns delete P1
ip netns delete HUB"""


def of_dry_run(harness: Harness) -> list[Outcome]:
    ended = harness.run(["sh", str(NETWORK), "--dry-run", "--cables", "netem", "--robots", "2"])
    lines = re.sub(r"mapf\d+-hub", "HUB", ended.out.decode())
    lines = re.sub(r"mapf\d+-", "P", lines)
    missing = [line for line in NETEM.splitlines() if line not in lines.splitlines()]
    return [compared("the commands of a network", "network.sh --dry-run --cables netem", (ended.status, missing), (0, []))]


def of_bad_networks(harness: Harness) -> list[Outcome]:
    folder = harness.folder()
    put_program(folder / "id", "#!/bin/sh\necho 1000\n")
    outcomes = []
    for words, status, told in (
        ([], 3, "network.sh: skipped: it makes network namespaces, which needs root\n"),
        (["--loss", "many"], 2, "network.sh: 'many' is no number\n"),
        (["--loss", "101"], 2, "network.sh: --loss and --twice are at most 100\n"),
        (["--delay", "9", "8"], 2, "network.sh: --delay wants the least time first\n"),
        (["--delay", "9"], 2, "network.sh: --delay wants two values\n"),
        (["--cables", "wool"], 2, "network.sh: --cables is netem, switch or plain\n"),
    ):
        ended = harness.run(["sh", str(NETWORK), *words], more={"PATH": f"{folder}:{os.environ['PATH']}"})
        outcomes.append(ended_as(f"network.sh {' '.join(words)} of who isn't root", "network.sh", ended, Ended(status, b"", told.encode())))
    return outcomes


def lacking() -> str:
    """What a network needs and isn't here."""
    if os.geteuid() != 0:
        return "root"
    if not shutil.which("ip") or not shutil.which("tc"):
        return "iproute2"
    probe = f"mapf{os.getpid()}-probe"
    for word in ("add", "delete"):
        if subprocess.run(["ip", "netns", word, probe], stderr=subprocess.DEVNULL, check=False).returncode:
            return "network namespace"
    return "" if os.path.exists("/dev/net/tun") else "/dev/net/tun"


def namespaces() -> str:
    return subprocess.run(["ip", "netns", "list"], stdout=subprocess.PIPE, stderr=subprocess.DEVNULL, text=True, check=False).stdout


def status_of(process: "subprocess.Popen[bytes]") -> int:
    """How it ended, which it may have to be made to."""
    try:
        return process.wait(60)
    except subprocess.TimeoutExpired:
        os.killpg(process.pid, signal.SIGTERM)
        process.wait()
        return 0


def of_network(harness: Harness) -> list[Outcome]:
    """Three robots, each in a namespace of its own; and what is left when that is interrupted."""
    words = ["sh", str(NETWORK), "--robots", "3", "--moves", "0.1", "--kills", "2", "--seed", "5", "--program", str(harness.program)]
    kept = harness.folder() / "boxes"
    ended = harness.run([*words, "--boxes", str(kept)])
    own = "arrived 3 " in ended.out.decode() and re.search(r" lost [1-9]", ended.out.decode()) is not None
    outcomes = [compared("three robots on a network", f"{shown(words)}, which told {ended.out!r} {ended.err[-800:]!r}", (ended.status, own), (0, True))]
    outcomes += [boxes.held(harness, "three robots on a network", str(boxes.WAREHOUSE), it) for it in sorted(kept.glob("*"))]
    for number in (signal.SIGINT, signal.SIGTERM, signal.SIGHUP) if harness.is_long else ():
        pipes = {"stdin": subprocess.DEVNULL, "stdout": subprocess.DEVNULL, "stderr": subprocess.DEVNULL}
        folder = harness.folder()
        process = subprocess.Popen(heeding([*words, "--moves", "5"]), env={**os.environ, "TMPDIR": str(folder)}, start_new_session=True, **pipes)
        runs = wait_until(lambda: any(" agent " in it[1] for it in processes_of(folder)))
        process.send_signal(number)
        status = status_of(process)
        left = [f"mapf{process.pid}-" in namespaces(), left_in(folder)]
        name = f"{signal.Signals(number).name} to a network"
        outcomes.append(compared(name, shown(words), (runs, status, left), (True, 128 + number, [False, []])))
    return outcomes


def tests(harness: Harness) -> Iterator[Callable[[], Sequence[Outcome]]]:
    yield functools.partial(of_dry_run, harness)
    yield functools.partial(of_bad_networks, harness)
    what = lacking()
    yield (lambda: [Outcome("a network", lacks=what)]) if what else functools.partial(of_network, harness)
