"""Runs jellyp, and counts what passed."""
import os
import re
import subprocess

# All names in the order of their numbers, which are from 1 on. docs/check holds them against the program's source.
FAULTS = ("Truncated BadVarint BadTag WrongWire Twice BadUtf8 TooDeep EmptyRow NoOptions BadOptions TableTooLarge "
          "OptionsDiffer WrongRow BadEntry NoEntry NoTerm NoGraph GraphOpen BadLangtag FrameTooLong SmallNames BadLogical "
          "NoStar NotPlain EarlyNamespace").split()
# Those that a strict reading alone has.
STRICT = "SmallNames BadLogical NoStar NotPlain EarlyNamespace".split()
LINE = re.compile(r"jellyp: malformed: file 1, frame ([0-9]+), row ([0-9]+): (%s)\n\Z" % "|".join(FAULTS))
USAGE = b"usage: jellyp COMMAND [--NAME=VALUE]... [FILE]...\n"


class Program:
    """The program, and a file that is written anew for each run."""

    def __init__(self, binary, folder):
        self.binary = binary
        self.file = os.path.join(folder, "file.jelly")

    def run(self, command, data=None, options=()):
        """Status, output and error lines; of the data that were given last where none are given."""
        if data is not None:
            with open(self.file, "wb") as file:
                file.write(data)
        words = [self.binary, command, *options, self.file]
        done = subprocess.run(words, stdin=subprocess.DEVNULL, capture_output=True, timeout=60)
        return done.returncode, done.stdout, done.stderr

    def has(self, command):
        status, _, errors = self.run(command, b"")
        return (status, errors) != (2, USAGE)


def fault_of(errors):
    """The place and name that the line on standard error tells, or None where it isn't such a line."""
    found = LINE.match(errors.decode("latin-1"))
    return found and ((int(found[1]), int(found[2])), found[3])


class Tally:
    """What passed, failed and was skipped. The first few failures are kept as files, to be looked at."""

    def __init__(self, keep):
        self.passed = self.failed = self.skipped = 0
        self.keep = keep

    def check(self, wrong, what, data=None):
        """A case: `wrong` says what is wrong, or is empty."""
        if not wrong:
            self.passed += 1
            return
        self.failed += 1
        if self.failed <= 10:
            print("failed: %s: %s" % (what, wrong))
            if data is not None:
                os.makedirs(self.keep, exist_ok=True)
                kept = os.path.join(self.keep, "%d.jelly" % self.failed)
                with open(kept, "wb") as file:
                    file.write(data)
                print("  its file: " + kept)

    def skip(self, what):
        self.skipped += 1
        print("skipped: " + what)


def difference(got, want):
    """Where two texts part, in words; empty where they don't."""
    if got == want:
        return ""
    at = len(os.path.commonprefix([got, want]))
    shown = slice(max(at - 20, 0), at + 60)
    return "byte %d: %r instead of %r" % (at, got[shown], want[shown])
