"""The search of tests/bench/worst; counting.py says what a table is."""
import copy
import json
import random
import subprocess
import sys
import time

from counting import frame, programs

seconds, seed, out, work, bay_many = sys.argv[1:6]
chance = random.Random(int(seed))
(OURS, PEER), (ours, peer) = programs(work, bay_many)


def ratio(table, least, most):
    """Ours against the peer's, with both; 0 where the peer takes less or more than it should: the search keeps to one size."""
    file = frame(table)
    if len(file) > 4000:
        return (0, 0, 0)
    of_peer = peer.count(file, 0.6)
    if of_peer is None or not least <= of_peer < most:
        return (0, 0, of_peer or 0)
    of_ours = ours.count(file, 5)
    return (of_ours / of_peer, of_ours, of_peer) if of_ours else (99, 0, of_peer)


def some_task(resources):
    execution = chance.choice([1, 1, 1, 2, 3, 5])
    deadline = execution + chance.choice([0, 0, 1, 2, 5])
    accesses = [chance.choice([0, 0, 1, execution]) for _ in range(resources)]
    return [deadline + chance.choice([0, 0, 1, 10]), execution, deadline, accesses]


def some_subsystem(resources):
    period = chance.choice([3, 5, 10, 30, 100, 1000, chance.randint(2, 3000)])
    budget = chance.randint(1, max(1, period // chance.choice([2, 3, 8, 20])))
    return [period, budget, [some_task(resources) for _ in range(chance.choice([1, 1, 1, 2, 3]))]]


def some_table():
    resources = chance.choice([0, 1, 1, 2, 4, 8])
    return [resources, [some_subsystem(resources) for _ in range(chance.randint(1, 8))]]


def sparse_table():
    """Eight resources, of which a subsystem holds one at the most: loops over resources find nothing."""
    subsystems = []
    for _ in range(chance.randint(3, 8)):
        tasks = [some_task(8) for _ in range(chance.choice([1, 2, 2, 2, 3]))]
        for task in tasks:
            task[3] = [0] * 8
        chance.choice(tasks)[3][chance.randrange(8)] = chance.choice([0, 1, 1])
        subsystems.append([chance.choice([10, 30, 100, 1000]), chance.choice([1, 1, 2, 3]), tasks])
    return [8, subsystems]


def climbing_table():
    """Higher subsystems that leave little free, so that a solution is reached in many steps."""
    left, subsystems = 1 - 1 / chance.choice([20, 50, 100, 300, 1000, 3000]), []
    periods = chance.choice([[3, 7, 10, 30, 100, 333, 1000, 10000], [5, 7, 8, 9, 11, 13, 17, 23], [700, 900, 1100, 1300, 1700, 5000]])
    for _ in range(chance.randint(1, 7)):
        period = chance.choice(periods)
        budget = max(1, int(period * left * chance.choice([0.2, 0.4, 0.6, 0.9, 1])))
        if budget / period <= left:
            subsystems.append([period, budget, [[1, 1, 1, [0]]]])
            left -= budget / period
    held = chance.choice([0, 0, 1, 5])
    period = chance.choice([10, 30, 100, 1000, 10000, 100000, 1000000])
    subsystems.append([period, chance.choice([1, 2, 5]), [[max(held, 1), max(held, 1), max(held, 1), [held]]]])
    return [1, subsystems]


def flowing_table():
    """Jobs that each wait for many periods of every higher subsystem, often with a lower one that blocks for long."""
    left, subsystems = 1.0, []
    for _ in range(chance.randint(2, 5)):
        period = chance.choice([10, 17, 30, 50, 71, 100, 150, 300, 999, chance.randint(5, 1000)])
        budget = max(1, int(period * left * chance.choice([0.15, 0.25, 0.4, 0.5])))
        if budget / period < left:
            subsystems.append([period, budget, [[1, 1, 1, [0]]]])
            left -= budget / period
    budget = chance.choice([100, 300, 700, 1000, 2000])
    period = min(1_000_000, int(budget / left * chance.choice([1.001, 1.003, 1.01, 1.03, 1.1])) + 1)
    subsystems.append([period, budget, [[1, 1, 1, [0]]]])
    if chance.random() < 0.7:
        held = chance.choice([1, 100, 1000, 5000])
        subsystems[0][2][0][3][0] = 1
        subsystems.append([1_000_000, held, [[held, held, held, [held]]]])
    return [1, subsystems]


def near(value, steps):
    return max(1, min(1_000_000, value + chance.choice(steps)))


def change_numbers(resources, subsystem):
    which = chance.random()
    if which < 0.3:
        subsystem[1] = near(subsystem[1], [-1, 1, -3, 3, -subsystem[1] // 2, subsystem[1] // 3])
    elif which < 0.6:
        subsystem[0] = near(subsystem[0], [-1, 1, subsystem[0], -subsystem[0] // 2, subsystem[0] // 7])
    elif which < 0.68 and len(subsystem[2]) < 8:
        subsystem[2].append(some_task(resources))
    elif which < 0.76 and len(subsystem[2]) > 1:
        subsystem[2].pop()
    else:
        task, place = chance.choice(subsystem[2]), chance.randrange(4)
        if place < 3:
            task[place] = near(task[place], [-1, 1, 3])
        elif resources:
            at = chance.randrange(resources)
            task[3][at] = max(0, task[3][at] + chance.choice([-1, 1, 2]))


def changed(table):
    resources, subsystems = table = copy.deepcopy(table)
    which = chance.random()
    if which < 0.08 and len(subsystems) > 1:
        subsystems.pop(chance.randrange(len(subsystems)))
    elif which < 0.16 and len(subsystems) < 8:
        subsystems.insert(chance.randrange(len(subsystems) + 1), some_subsystem(resources))
    elif which < 0.2:
        chance.shuffle(subsystems)
    elif which < 0.26 and resources > 0:
        table[0] -= 1
        [task[3].pop() for s in subsystems for task in s[2]]
    elif which < 0.32 and resources < 8:
        table[0] += 1
        [task[3].append(chance.choice([0, 0, 0, 1])) for s in subsystems for task in s[2]]
    else:
        change_numbers(resources, chance.choice(subsystems))
    return table


KINDS = [some_table, sparse_table, climbing_table, flowing_table]


class Search:
    """Twelve tables, each changed again and again and kept where it gets worse; one that does not for long gives way to a new one."""

    def __init__(self, name, least, most):
        self.name, self.least, self.most, self.climbing, self.given_up, self.tried = name, least, most, [], [], 0

    def found(self, table):
        self.tried += 1
        return [ratio(table, self.least, self.most), table, 0]

    def step(self):
        if len(self.climbing) < 12:
            self.climbing.append(max((self.found(chance.choice(KINDS)()) for _ in range(40)), key=lambda one: one[0][0]))
            return
        at = chance.randrange(12)
        now = self.climbing[at]
        table = now[1]
        for _ in range(chance.choice([1, 1, 1, 2, 2, 3])):
            table = changed(table)
        then = self.found(table)
        if then[0][0] < now[0][0]:
            then = now
        then[2] = now[2] + 1 if then[0][0] <= now[0][0] + 0.0001 else 0
        self.climbing[at] = then
        if then[2] > 2500:
            self.given_up.append(self.climbing.pop(at))

    def worst(self):
        return sorted(self.climbing + self.given_up, key=lambda one: -one[0][0])[:4]


def text(program, table):
    return subprocess.run(["qemu-x86_64"] + program, input=frame(table), capture_output=True).stdout


searches = [Search("small", 2_000, 15_000), Search("long", 15_000, 3_000_000)]
end = time.time() + float(seconds)
while time.time() < end:
    for search in searches:
        search.step()
for search in searches:
    print(f"{search.name}: {search.tried} tables tried; the worst, ours / peer with both counts:")
    for (share, of_ours, of_peer), table, _ in search.worst():
        print(f"{share:.3f} {of_ours} {of_peer} {json.dumps(table)}")
        if text(OURS, table) != text(PEER, table):
            print("the two differ on it")
worst = max((one for search in searches for one in search.worst()), key=lambda one: one[0][0])
open(out, "wb").write(frame(worst[1]))
