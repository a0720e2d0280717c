#!/usr/bin/env python3
"""An order desk that survives kills: each order is packed or refunded, once.

Two customers place orders, and two packers pack them. What could not be packed in three tries goes to `trouble`, where a clerk refunds it. All of
them are threads of one program, which keeps nothing but the log. Its manager is killed now and then. Then the day begins again: each thread
registers under its name, is told how far it came, and goes on.
"""
from __future__ import annotations
import argparse, os, random, sys, threading, time
from collections import Counter
from collections.abc import Callable
from concurrent.futures import Future, ThreadPoolExecutor

TOP = os.path.dirname(os.path.dirname(os.path.dirname(os.path.abspath(__file__))))
sys.path.insert(0, os.path.join(TOP, "python"))
from tetherearly import Element, Lost, Manager, Queue, Registrant  # noqa: E402

CUSTOMERS, PACKERS = ("ann", "bob"), ("pat", "peg")
# How long a thread waits for work, in seconds, before it looks whether the day is over.
PATIENCE = 0.2


class CannotPack(Exception):
    """The order is too large for our boxes."""


def pack(order: Element) -> bytes:
    if order.payload.endswith(b"7"):
        raise CannotPack
    return b"parcel of " + order.payload


def refund(order: Element) -> bytes:
    return b"refund of " + order.payload


class Day:
    """The desk between two crashes."""

    def __init__(self, m: Manager, orders_each: int) -> None:
        self.m, self.orders_each = m, orders_each
        self.trouble, self.parcels, self.refunds = m.define("trouble"), m.define("parcels"), m.define("refunds")
        self.orders = m.define("orders", limit=3, error=self.trouble)
        self.is_over = threading.Event()

    def customer(self, me: Registrant) -> None:
        """Places orders, each with its number as the tag: so the log says how many were placed."""
        first = me.last.tag + 1 if me.last else 1
        for number in range(first, self.orders_each + 1):
            with self.m.unit() as u:
                u.enqueue(self.orders, f"{me.name} {number}".encode(), priority=number % 3, by=me.tag(number))

    def worker(self, me: Registrant, makes: Callable[[Element], bytes], to: Queue) -> None:
        """Takes an order and hands on what becomes of it: both, or neither."""
        while not self.is_over.is_set():
            try:
                with self.m.unit() as u:
                    order = u.dequeue(me.queue, by=me.next(), wait=PATIENCE)
                    if order is not None:
                        u.enqueue(to, makes(order))
            except CannotPack:
                pass  # the unit was aborted: the order is free again, with one attempt more

    def staff(self, pool: ThreadPoolExecutor) -> list[Future[None]]:
        customers = [pool.submit(self.customer, self.orders.register(it)) for it in CUSTOMERS]
        packers = [pool.submit(self.worker, self.orders.register(it), pack, self.parcels) for it in PACKERS]
        return [*customers, *packers, pool.submit(self.worker, self.trouble.register("kim"), refund, self.refunds)]

    def done(self) -> int:
        return self.parcels.depth().free + self.refunds.depth().free

    def goes_on(self, until: int, is_killed: bool) -> None:
        """Until so many orders are done; then the manager is killed, if it is to be, and `Lost` comes."""
        with ThreadPoolExecutor() as pool:
            try:
                staff = self.staff(pool)
                while self.done() < until:
                    time.sleep(0.002)
                if is_killed:
                    time.sleep(random.uniform(0, 0.02))
                    self.m.kill()
            finally:
                self.is_over.set()
        for it in staff:
            it.result()
        if is_killed:
            self.m.settle()


def became_of(m: Manager) -> Counter[str]:
    """What became of each order, and how often."""
    return Counter(it.payload.decode() for name in ("parcels", "refunds") for it in m.queue(name).free(10**9))


def main() -> int:
    line = argparse.ArgumentParser(description=__doc__.split("\n")[0])
    line.add_argument("log")
    line.add_argument("--orders", type=int, default=100, help="of each customer")
    line.add_argument("--kills", type=int, default=20)
    words = line.parse_args()
    kills, total = 0, len(CUSTOMERS) * words.orders
    while True:
        is_killed = kills < words.kills
        try:
            with Manager(words.log) as m:
                Day(m, words.orders).goes_on(total * kills // words.kills if is_killed else total, is_killed)
                found = became_of(m)
            break
        except Lost as lost:
            kills += 1
            print(f"kill {kills}: {lost}")
    wanted = {f"{'refund' if number % 10 == 7 else 'parcel'} of {it} {number}" for it in CUSTOMERS for number in range(1, words.orders + 1)}
    print(f"{kills} kills, {len(wanted)} orders, {sum(found.values())} done")
    return 0 if set(found) == wanted and set(found.values()) == {1} else 1


if __name__ == "__main__":
    sys.exit(main())
