#!/usr/bin/env python3
"""A drive to begin from, for `robot.py --drive SOCKET`: it takes a second for each move, and turns no wheels yet.

Usage: own_drive.py SOCKET X Y, where the robot stands in the cell in column X and row Y.
"""
import contextlib
import os
import select
import socket
import sys
import time

path, here, to, due = sys.argv[1], sys.argv[2:4], [], 0.0
with contextlib.suppress(FileNotFoundError):
    os.unlink(path)
wire = socket.socket(socket.AF_UNIX, socket.SOCK_DGRAM)
wire.bind(path)
robot = ""
while True:
    word, cell = "", []
    if select.select([wire], [], [], 0.05)[0]:
        robot, word, *cell = wire.recv(1 << 18).decode().split()
    if word == "go" and not to and cell != here:
        to, due = cell, time.monotonic() + 1  # the wheels begin to turn
    elif to and time.monotonic() > due:  # they have stopped, wholly in the new cell
        here, to, word = to, [], "where"
    if word in ("go", "where"):
        with contextlib.suppress(OSError):  # who was killed asks again
            wire.sendto(" ".join(["goes" if to else "stands", *here, *to]).encode(), socket.MSG_DONTWAIT, f"{path}.{robot}")
