"""Several workers against one, on files that protobuf's library wrote, on damaged ones, and again and again on one file.

Whatever the number of workers is, and however many frames a worker takes at a time, status, text and fault have to be those
of one worker. Runs of a few frames put many runs into a small file, so that workers meet each other's summaries.
"""
import os
import random
from concurrent.futures import ThreadPoolExecutor

import damage
import making

WORKERS = range(1, 9)
RUNS = (1, 2, 3, 16)


def options_of(workers, run):
    return "--workers=%d" % workers, "--run=%d" % run


def check(program, commands, tally, what, data):
    """One file, by all numbers of workers and runs."""
    for command in commands:
        wanted = program.run(command, data, options_of(1, 16))
        for workers in WORKERS:
            for run in RUNS:
                options = options_of(workers, run)
                same = program.run(command, None, options) == wanted
                wrong = "" if same else "%s differs from that of one worker" % " ".join((command,) + options)
                tally.check(wrong, what, data)


def again(program, tally, seed, times):
    """One file many times, more of them at once than there are processors."""
    made = random.Random("%s, again" % seed)
    data = making.file_bytes(making.make(made, 3))
    wanted = program.run("nquads", data, options_of(1, 16))

    def differs(number):
        options = options_of(2 + number % 7, RUNS[number % 3])
        return program.run("nquads", None, options) != wanted

    with ThreadPoolExecutor(4 * (os.cpu_count() or 1)) as pool:
        differ = sum(pool.map(differs, range(times)))
    tally.check("%d times another answer than that of one worker" % differ if differ else "", "the same file %d times" % times, data)


def run(program, commands, tally, seed, count, times):
    commands = [command for command in commands if command != "inspect"]
    print("%d files and as many damaged ones, from seed %s, by 1 to 8 workers; one file %d times" % (count, seed, times))
    with damage.quiet():
        for what, data in damage.whole_and_damaged(seed, "workers", count):
            check(program, commands, tally, what, data)
    again(program, tally, seed, times)
