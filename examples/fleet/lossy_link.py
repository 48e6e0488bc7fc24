"""A simulated link between robots, which loses messages, repeats them and lets them overtake one another."""
import random

LONGEST_DELAY = 8


class Link:
    """Carries messages, some never, some twice, each with a delay of its own."""

    def __init__(self, loss: float, rng: random.Random):
        self.loss, self.rng = loss, rng
        # When each message is due, to which agent, and its digits.
        self.under_way: list[tuple[int, int, str]] = []
        self.sent = self.lost = self.repeated = 0

    def send(self, now: int, to: int, message: str) -> None:
        self.sent += 1
        if self.rng.random() < self.loss:
            self.lost += 1
            return
        copies = 2 if self.rng.random() < self.loss else 1
        self.repeated += copies - 1
        for _ in range(copies):
            self.under_way.append((now + self.rng.randint(1, LONGEST_DELAY), to, message))

    def arrived(self, now: int) -> list[tuple[int, str]]:
        """The messages that are due, in any order."""
        due = [it for it in self.under_way if it[0] <= now]
        self.under_way = [it for it in self.under_way if it[0] > now]
        self.rng.shuffle(due)
        return [(to, message) for _, to, message in due]

    def leave_out(self, gone: int) -> None:
        """An agent is no more, and those behind it have a number less by one: to these comes what is under way to them."""
        self.under_way = [(due, to - (to > gone), message) for due, to, message in self.under_way if to != gone]
