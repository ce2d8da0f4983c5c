"""Counts executed instructions file by file, in programs that go on from one to the next: our bay_many and the peer's fast engine under
qemu-user with the plugin count.c. A table is [M, subsystems], a subsystem [P, Q, tasks], a task [T, C, D, accesses]."""
import os
import select
import struct
import subprocess
import time

SMALLEST = [0, [[10, 1, [[5, 1, 5, []]]]]]


def number(value):
    return struct.pack(">I", value)


def frame(table):
    resources, subsystems = table
    file = bytes([1, 0, 3, 1, len(subsystems), resources])
    for period, budget, tasks in subsystems:
        file += bytes([2, 0, 9]) + number(period) + number(budget) + bytes([len(tasks)])
        for separation, execution, deadline, accesses in tasks:
            times = [separation, execution, deadline] + accesses
            file += bytes([3, 0, 12 + 4 * resources]) + b"".join(number(t) for t in times)
    return number(len(file)) + file


class Counted:
    """A program that goes on from file to file. It reads all that there is of one, and when it reads again it waits for the next."""

    def __init__(self, plugin, program):
        self.plugin, self.program, self.process = plugin, program, None
        self.start()

    def start(self):
        if self.process:
            self.process.kill()
            self.process.wait()
            os.close(self.told)
        self.told, end = os.pipe()
        command = ["qemu-x86_64", "-plugin", self.plugin] + self.program
        self.process = subprocess.Popen(command, stdin=subprocess.PIPE, stdout=subprocess.DEVNULL, stderr=end, bufsize=0)
        os.close(end)
        self.rest = b""
        self.so_far = self.number(10)
        self.count(frame(SMALLEST), 10)

    def number(self, patience):
        until = time.time() + patience
        while b"\n" not in self.rest:
            left = until - time.time()
            if left <= 0 or not select.select([self.told], [], [], left)[0]:
                return None
            self.rest += os.read(self.told, 4096)
        line, self.rest = self.rest.split(b"\n", 1)
        return int(line)

    def count(self, file, patience):
        """The instructions for this file; None where it takes too long, and then the program is started anew."""
        self.process.stdin.write(file)
        number = self.number(patience)
        if number is None:
            self.start()
            return None
        took, self.so_far = number - self.so_far, number
        return took


def programs(work, bay_many):
    """The command lines of both programs, and both running."""
    ours, peer = [bay_many], [work + "/peer", "fast"]
    plugin = work + "/count.so,reads=on"
    return (ours, peer), (Counted(plugin, ours), Counted(plugin, peer))
