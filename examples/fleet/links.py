"""The link of a robot, as its command line has it: by UDP or MQTT, and signed where it has keys."""
import argparse

from count_file import Count
from given import NUMBERS
from keys import read_keys
from letters import Link
from link_mqtt import MqttLink
from link_udp import UdpLink
from signing import SignedLink, Signer, Verifier

# A number of a plan has at most so many digits.
DIGITS = 10


def number_of(plan: str) -> int:
    """The plan's number, which names the run. Whether the text is a plan is for the agent to say."""
    with open(plan, encoding="ascii", errors="replace") as file:
        words = [file.readline(), file.readline()][1].split()
    is_number = len(words) == 2 and words[1].isascii() and words[1].isdigit() and len(words[1]) <= DIGITS
    return int(words[1]) % NUMBERS if is_number else 0


def link_of(given: argparse.Namespace) -> Link:
    """The robot's link. It has the lock of its tape already, and so the count beside that."""
    run = number_of(given.plan)
    if given.keys is None:
        return unsigned_link(given, run)
    keys = read_keys(given.keys, [given.id])
    signer = Signer(keys[given.id], given.id, run, Count(given.tape))
    return SignedLink(unsigned_link(given, run), signer, Verifier(keys, run))


def unsigned_link(given: argparse.Namespace, run: int) -> Link:
    if given.broker:
        return MqttLink(given.broker, run, given.id, given.patience, given.tls)
    return UdpLink(given.listen, given.peers or [], given.group)
