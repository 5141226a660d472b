"""table.py DRIVE WORK RUNS: the tables that bench/run prints."""
import os
import re
import resource
import subprocess
import sys

drive, work, runs = sys.argv[1], sys.argv[2], int(sys.argv[3])
plain, stamped = [work + "/plain/oracle", "drive"], [work + "/stamped/oracle", "drive"]
CALLS = ["NetStation.*::admit", "NetStation.*::ncs_rx", "NetStation.*::ncs_next", "NetStation.*::on_tx_done"]
# boats, rounds, frames, bytes of a piece, bytes of a message, cells, options
SCRIPTS = {
    "typical": "10 2000 6 40 78 10",
    "heavy": "62 40 64 190 2046 64 fixed",
    "posts": "10 2000 6 40 78 10 posts",
    "sign-offs": "10 2000 6 40 78 10 leaves",
}
GROWTH = [(boats, 4000 // boats, 10) for boats in (1, 10, 30, 62)] + [(10, 400, cells) for cells in (1, 64)]


def write(name, arguments):
    """The script, the same with no call in its words, and how many calls of each kind it has."""
    made = [sys.executable, os.path.dirname(__file__) + "/script.py"] + arguments.split()
    with open(work + "/" + name, "wb") as script:
        counts = subprocess.run(made, stdout=script, stderr=subprocess.PIPE, check=True).stderr.decode().split()
    with open(work + "/" + name + ".words", "wb") as script:
        subprocess.run(made + ["words"], stdout=script, stderr=subprocess.DEVNULL, check=True)
    return {kind: int(n) for kind, n in zip(counts[::2], counts[1::2])}


def run(command, name, stack=None, loaded=None):
    """Seconds of processor time, what went to standard error, and whether it ended well."""
    limit = (lambda: resource.setrlimit(resource.RLIMIT_STACK, (stack, stack))) if stack else None
    env = dict(os.environ, LD_PRELOAD=loaded) if loaded else None
    with open(work + "/" + name, "rb") as words:
        done = subprocess.Popen(command, stdin=words, stdout=subprocess.DEVNULL, stderr=subprocess.PIPE, preexec_fn=limit, env=env)
        said = done.stderr.read().decode()
        _, status, used = os.wait4(done.pid, 0)
        return used.ru_utime + used.ru_stime, said, status == 0


def least(name, with_rust):
    """Seconds of our calls with the words that they print, and of the Rust's alone: the least of the runs."""
    whole = words = rust = float("inf")
    for _ in range(runs):
        whole, words = min(whole, run([drive], name)[0]), min(words, run([drive], name + ".words")[0])
        if with_rust:
            rust = min(rust, float(run(stamped, name)[1].split("\n")[-2]))
    return whole - words, rust


def row(label, name, counts, with_rust=True):
    ours, rust = least(name, with_rust)
    calls = sum(n for kind, n in counts.items() if kind != "frames")
    held = calls - counts.get("free", 0)
    ratio = "%5.2f" % (ours / rust) if with_rust else "    -"
    theirs = "%8.3f" % (1e6 * rust / held) if with_rust else "       -"
    print("| %s | %-28s | %7d | %8.3f | %s |" % (ratio, label, calls, 1e6 * ours / calls, theirs), flush=True)


def instructions(command, name):
    """Millions of instructions by function, what it calls included."""
    out = work + "/callgrind"
    run(["valgrind", "--tool=callgrind", "--callgrind-out-file=" + out] + command, name)
    text = subprocess.run(["callgrind_annotate", "--inclusive=yes", "--threshold=100", out], stdout=subprocess.PIPE, stderr=subprocess.DEVNULL)
    lines = [re.match(r" *([\d,]+) \(.*?\) +(.*)", line) for line in text.stdout.decode().split("\n")]
    return [(found.group(2), int(found.group(1).replace(",", "")) / 1e6) for found in lines if found]


def inside(counts, name):
    return max([n for f, n in counts if re.search(name, f)] + [0])


def outside_copies(name):
    """Millions of instructions of `drive` outside copies."""
    counts = instructions([drive], name)
    return inside(counts, "PROGRAM TOTALS") - inside(counts, "memcpy|memmove")


def stack(command, name):
    """The least stack, in KiB, that the program runs in."""
    low, high = 0, 8192
    while high - low > 4:
        middle = (low + high) // 2
        low, high = (low, middle) if run(command, name, 1024 * middle)[2] else (middle, high)
    return high


def counted(label, arguments):
    counts = write("short", arguments)
    alone = sum(inside(instructions(plain, "short"), f) for f in CALLS)
    ours = outside_copies("short") - outside_copies("short.words")
    copies, bytes_copied, largest = run([drive], "short", loaded=work + "/copies.so")[1].split("\n")[-2].split()
    calls = sum(n for kind, n in counts.items() if kind not in ("frames", "free"))
    print("| %-8s | %7.1f | %7.1f | %6.2f | %8.1f | %6s | %5d | %5d |" % (
        label, ours, alone, int(copies) / calls, int(bytes_copied) / calls / 1000, largest, stack([drive], "short"), stack(plain, "short")))


print("| ratio | script | calls | us a call, with its words | the Rust's |\n| --- | --- | --- | --- | --- |")
for name, arguments in SCRIPTS.items():
    row(name, name, write(name, arguments), name != "sign-offs")
for boats, rounds, cells in GROWTH:
    row("boats %d, cells %d" % (boats, cells), "growth", write("growth", "%d %d 6 40 78 %d" % (boats, rounds, cells)))
print()
print("| short | million instructions | the Rust's | copies a call | KB copied a call | a station | stack, KiB | the Rust's |")
print("| --- | --- | --- | --- | --- | --- | --- | --- |")
counted("typical", "10 100 6 40 78 10")
counted("heavy", "62 2 64 190 2046 64 fixed")
