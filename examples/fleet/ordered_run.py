"""A run of a fleet that never stops: robots get plan after plan, each of which goes on from the one before, and go over to it one by one while they drive."""
import os
import pathlib
import random
import shutil
import subprocess
import time
from typing import Any

from fleet_run import Failed, Run
from orders import Orders

# Seconds between two looks at the tapes, and the longest ones after which a robot gets a plan that is there.
LOOK, LONGEST_WAY = 0.3, 1.5


class OrderedRun(Run):
    """Each robot has the file of its plan to itself, in whose place the next one is put."""

    watcher_words = ("--orders",)

    def __init__(self, orders: Orders, wanted: int, *rest: Any, folder: pathlib.Path):
        self.orders, self.wanted = orders, wanted
        # How many moves each robot has finished by its tape, which plan it has, and when it gets the last one.
        robots = len(orders.walks)
        self.done, self.has, self.gets_at = [0] * robots, [0] * robots, [0.0] * robots
        self.looks_at = self.begun = 0.0
        for robot in range(robots):
            shutil.copyfile(orders.plans[0], self._file(folder, robot))
        shutil.copyfile(orders.plans[0], folder / "run.plan")
        super().__init__(*rest, folder=folder)

    def _file(self, folder: pathlib.Path, robot: int) -> pathlib.Path:
        return folder / f"robot{robot}.plan"

    def plan_of(self, robot: int) -> pathlib.Path:
        return self._file(self.folder, robot)

    def is_over(self) -> bool:
        """Gives out what is due, and answers whether all orders were given out and carried out."""
        now = time.monotonic()
        self.begun = self.begun or now
        self._hand_out(now)
        if now < self.looks_at:
            return False
        self.looks_at = now + LOOK
        self.done = [self._finished_moves(robot) for robot in range(len(self.done))]
        at_end = [done == moves[-1] for done, moves in zip(self.done, self.orders.moves)]
        if self.orders.given < self.wanted and any(at_end):
            self._give_out()
            self.gets_at = [now + self.rng.uniform(0, LONGEST_WAY) for _ in self.gets_at]
            return False
        if self.orders.given < self.wanted or not all(at_end) or min(self.has) < len(self.orders.plans) - 1:
            return False
        shutil.copyfile(self.orders.plans[-1], self.plan)
        plans, carried_out = len(self.orders.plans), sum(self.orders.carried_out(robot, done) for robot, done in enumerate(self.done))
        self.told += f" arrived {len(self.done)} seconds {now - self.begun:.2f} orders {carried_out} plans {plans} "
        return True

    def _give_out(self) -> None:
        """Adds orders, and puts their plan beside the robots' boxes, where these are kept."""
        self.orders.give_out()
        plan, boxes = self.orders.plans[-1], self.settings.boxes
        if boxes:
            shutil.copyfile(plan, boxes / plan.name)

    def _hand_out(self, now: float) -> None:
        """Puts the last plan in the place of a robot's, whole, where its time has come."""
        for robot, at in enumerate(self.gets_at):
            if self.has[robot] < len(self.orders.plans) - 1 and now >= at:
                new = self.folder / "next.plan"
                shutil.copyfile(self.orders.plans[-1], new)
                os.replace(new, self.plan_of(robot))
                self.has[robot] = len(self.orders.plans) - 1

    def _finished_moves(self, robot: int) -> int:
        """By the robot's tape, which may be read beside its agent."""
        words = [self.settings.program, "tape", *self.agent_words(robot)[2:]]
        ended = subprocess.run(words, stdin=subprocess.DEVNULL, stdout=subprocess.PIPE, text=True, check=False)
        if ended.returncode:
            raise Failed(f"the tape of robot {robot} can't be read (status {ended.returncode})")
        return int(ended.stdout.split("\n")[0].split()[-1])
