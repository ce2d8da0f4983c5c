"""The counts of tests/bench/profiles: generated frames, split into files and counted one by one."""
import struct
import sys

from counting import programs

work, bay_many = sys.argv[1:3]
_, (ours, peer) = programs(work, bay_many)
SIZES = [5_000, 9_000, 15_000, 30_000, float("inf")]


def files(path):
    frames = open(path, "rb").read()
    while frames:
        length = 4 + struct.unpack(">I", frames[:4])[0]
        yield frames[:length]
        frames = frames[length:]


def counted(path):
    """Files that both programs read at once: an empty one takes ours a read less, and the peer has a buffer of 4,096 bytes."""
    return [(ours.count(file, 60), peer.count(file, 600)) for file in files(path) if 4 < len(file) <= 4096]


print("| Profile | Files | Ours | Peer | Ours / peer | The highest of a file |")
print("|---|---|---|---|---|---|")
highest = {size: (0, 0) for size in SIZES}
for path in sys.argv[3:]:
    counts = counted(path)
    all_ours, all_peer = sum(a for a, _ in counts), sum(b for _, b in counts)
    worst = max(a / b for a, b in counts)
    print(f"| {path.split('/')[-1]} | {len(counts)} | {all_ours:,} | {all_peer:,} | {all_ours / all_peer:.3f} | {worst:.2f} |")
    for a, b in counts:
        size = next(size for size in SIZES if b < size)
        highest[size] = (highest[size][0] + 1, max(highest[size][1], a / b))
print()
print("| The peer takes less than | Files | Ours takes, at most |")
print("|---|---|---|")
for size, (number, share) in highest.items():
    print(f"| {size:,} | {number} | {share:.2f} times |")
