"""Summaries against the decoder's rows, on files that protobuf's library wrote and on damaged ones.

crates/try_summaries goes over each file row by row, and by summaries of runs of 1, 2, 3 and 7 frames, which it composes in
two groupings, compacts, and puts into blocks. All have to lead to the same state or the same fault.
"""
import os
import subprocess

import damage

# Files a call of the program.
GROUP = 100


def wrong(binary, names):
    """What is wrong with some files, or nothing."""
    done = subprocess.run([binary, "check", *names], stdin=subprocess.DEVNULL, capture_output=True, timeout=600)
    return "" if done.returncode == 0 else "ended with %d" % done.returncode


def check(binary, tally, group, folder):
    """Some files at once; each by itself where one is wrong."""
    names = []
    for number, (_, data) in enumerate(group):
        names.append(os.path.join(folder, "summaries%d.jelly" % number))
        with open(names[-1], "wb") as file:
            file.write(data)
    if not wrong(binary, names):
        for what, _ in group:
            tally.check("", what)
        return
    for name, (what, data) in zip(names, group):
        tally.check(wrong(binary, [name]), "by summaries, " + what, data)


def run(binary, tally, seed, count, folder):
    if not os.access(binary, os.X_OK):
        tally.skip("summaries of files: %s isn't built" % binary)
        return
    print("%d files and as many damaged ones, from seed %s, by their summaries" % (count, seed))
    group = []
    with damage.quiet():
        for made in damage.whole_and_damaged(seed, "summaries", count):
            group.append(made)
            if len(group) == GROUP:
                check(binary, tally, group, folder)
                group = []
        if group:
            check(binary, tally, group, folder)
