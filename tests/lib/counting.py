"""What programs cost in instructions of the processor, as valgrind counts them; and what an event of the lease book costs."""
import re
import subprocess

# clients and pools
FEW, MANY = (100, 1), (10_000, 500)


def instructions(*words):
    """How many one run of a program takes."""
    valgrind = ["valgrind", "--tool=callgrind", "--callgrind-out-file=/dev/null", *map(str, words)]
    said = subprocess.run(valgrind, stdout=subprocess.DEVNULL, stderr=subprocess.PIPE, text=True, check=True).stderr
    return int(re.search(r"Collected : (\d+)", said)[1])


def an_event(cost, trials, crowd, events):
    """What an event takes of so many, with this crowd, by the cost of a run: that the clients come counts for nothing."""
    return (cost(trials, "book", *crowd, events) - cost(trials, "book", *crowd, 1)) / events
