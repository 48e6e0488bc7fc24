#!/usr/bin/env python3
"""A broker of MQTT beside a fleet: Debian's mosquitto, which keeps nothing on a disk.

Usage: broker.py COMMAND ..

As a program it runs a command until its own input ends, as it does when who started it is killed, and then kills it. A signal that the system would
send instead goes lost where a broker changes its user.
"""
import os
import pathlib
import select
import shutil
import subprocess
import sys
import time
from typing import Optional, Sequence

CONFIGURATION = """listener {port} {host}
allow_anonymous true
set_tcp_nodelay true
"""
# What each configuration has besides: nothing is left of a broker.
BESIDE = """persistence false
log_type error
log_dest stderr
"""
# That of a broker that lets in whom it knows, and where it has its files.
HERE = pathlib.Path(__file__).resolve().parent
OF_TLS, INSTALLED, LISTENER = HERE / "broker" / "mosquitto.conf", "/etc/mosquitto/mapf", "listener 8883\n"
# Where Debian has it, also where that is on nobody's path.
PLACES = "/usr/sbin:/usr/local/sbin"
SOON = 0.3
# Seconds between two looks at a broker.
LOOK = 0.1


class NoBroker(Exception):
    """There is no mosquitto, or it doesn't start."""


def configuration_of(address: str, tls: Optional[pathlib.Path]) -> str:
    """How a broker is run at an address; by TLS where there is a folder of certificates.sh."""
    host, _, port = address.rpartition(":")
    if not tls:
        return CONFIGURATION.format(host=host, port=port) + BESIDE
    text = OF_TLS.read_text(encoding="ascii").replace(LISTENER, f"listener {port} {host}\n")
    text = text.replace(f"{INSTALLED}/acl", str(OF_TLS.with_name("acl"))).replace(INSTALLED, str(tls.absolute()))
    # One that root starts would change its user, and then may not read the folder.
    return text + BESIDE + ("user root\n" if os.geteuid() == 0 else "")


class Broker:
    def __init__(self, address: str, words: Sequence[str], folder: pathlib.Path, tls: Optional[pathlib.Path] = None):
        program = shutil.which("mosquitto") or shutil.which("mosquitto", path=PLACES)
        if not program:
            raise NoBroker("a broker of MQTT is wanted, as Debian's mosquitto: there is none here")
        configuration = folder / "mosquitto.conf"
        configuration.write_text(configuration_of(address, tls), encoding="utf-8")
        self.address, self.command = address, [sys.executable, __file__, *words, program, "-c", str(configuration)]
        self.log = folder / "mosquitto.log"
        self.process: Optional["subprocess.Popen[bytes]"] = None
        self.start()
        # One whose port is in use ends at once.
        time.sleep(SOON)
        if self.process and self.process.poll() is not None:
            lines = self.log.read_text(encoding="utf-8", errors="replace").splitlines()
            raise NoBroker(f"the broker at {address} doesn't start: {lines[-1] if lines else self.process.returncode}")

    def start(self) -> None:
        if self.process is None:
            with open(self.log, "wb") as log:
                self.process = subprocess.Popen(self.command, stdin=subprocess.PIPE, stdout=log, stderr=log, start_new_session=True)

    def stop(self) -> None:
        if self.process is not None:
            self.process.stdin.close()
            self.process.wait()
            self.process = None


def guard(command: Sequence[str]) -> int:
    """Runs a command until the input ends."""
    process = subprocess.Popen(command, stdin=subprocess.DEVNULL)
    while process.poll() is None:
        if select.select([0], [], [], LOOK)[0]:
            process.kill()
    # The status of a signal as a shell has it.
    return process.returncode if process.returncode >= 0 else 128 - process.returncode


if __name__ == "__main__":
    sys.exit(guard(sys.argv[1:]))
