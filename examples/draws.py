#!/usr/bin/env python3
"""The model of draws.sim as a plain program: reads its data from standard input and writes its report.

It shares nothing with the interpreter, and so tells whether the figures of the model's routines are right: uniform,
exponential and triangular draws, a mean over time, a time-out that is cancelled, an array.
"""
import heapq
import sys

# At one time the classes of events go in this order.
ARRIVAL, EXPIRY, RELEASE = 1, 2, 3


class Desk:
    """A desk with one clerk."""

    def __init__(self, seed, heights):
        self.seed, self.heights = seed, heights
        self.clock = self.came = self.served = self.lost = self.area = self.changed = 0
        self.busy, self.queue, self.notices, self.made = False, [], [], 0

    def uniform(self, least, most):
        """Draws a whole number from least to most."""
        self.seed = self.seed * 16807 % 2147483647
        return least + self.seed % (most - least + 1)

    def exponential(self, mean):
        """Draws an exponential time of this mean by the table."""
        return (mean * self.heights[self.uniform(1, len(self.heights)) - 1] + 500) // 1000

    def triangular(self, least, peak, most):
        """Draws a triangular time."""
        u, v = sorted((self.uniform(0, 1000000), self.uniform(0, 1000000)))
        return least + ((most - peak) * u + (peak - least) * v + 500000) // 1000000

    def schedule(self, kind, wait, who=None):
        """Schedules an event."""
        self.made += 1
        heapq.heappush(self.notices, (self.clock + wait, kind, self.made, who))

    def count(self):
        """Adds what the queue was long since its last change."""
        self.area += len(self.queue) * (self.clock - self.changed)
        self.changed = self.clock

    def serve(self):
        """Begins to serve a caller."""
        self.busy = True
        self.schedule(RELEASE, self.triangular(4, 8, 18))

    def arrive(self):
        """A caller comes."""
        self.came += 1
        if self.came < 500:
            self.schedule(ARRIVAL, self.exponential(10))
        if not self.busy:
            self.serve()
            return
        self.count()
        self.queue.append(self.came)
        self.schedule(EXPIRY, self.uniform(20, 40), self.came)

    def release(self):
        """The clerk is free."""
        self.served += 1
        self.busy = False
        if self.queue:
            self.count()
            self.queue.pop(0)
            self.serve()

    def expire(self, who):
        """A caller who still waits goes away; of one who was taken the time-out is void."""
        if who in self.queue:
            self.count()
            self.queue.remove(who)
            self.lost += 1
            return True
        return False

    def run(self):
        """Runs to the end."""
        self.schedule(ARRIVAL, 0)
        while self.notices:
            before = self.clock
            self.clock, kind, _, who = heapq.heappop(self.notices)
            if kind == ARRIVAL:
                self.arrive()
            elif kind == RELEASE:
                self.release()
            elif not self.expire(who):
                self.clock = before
        self.count()


def main():
    """Writes the report of the data."""
    seed, number, *heights = map(int, sys.stdin.read().split())
    desk = Desk(seed, heights[:number])
    desk.run()
    mean = desk.area * 1000 // desk.clock
    print(f"{desk.came:4} CAME, {desk.served:4} WERE SERVED, {desk.lost:4} WENT AWAY.")
    print(f"THE LAST LEFT AT {desk.clock:6}.")
    print(f"CALLERS IN LINE IN THE MEAN, TIMES A THOUSAND: {mean:5}")


if __name__ == "__main__":
    main()
