#!/usr/bin/env python3
"""Holds jellyp against programs that nobody here wrote; interop/run calls it.

The last line counts what passed, failed and was skipped. The status is 1 where something failed.
"""
import argparse
import importlib
import os
import shutil
import subprocess
import sys
import tempfile

from program import Program, Tally

HERE = os.path.dirname(os.path.abspath(__file__))
CRATES = os.path.join(os.path.dirname(HERE), "crates")
ENCODER = os.path.join(CRATES, "encode_made/out/encode_made")
SUMMARIES = os.path.join(CRATES, "try_summaries/out/try_summaries")


def protobuf_is_there(tally, folder):
    """Whether protobuf's library is there; then its classes for the schema can be imported."""
    if not shutil.which("protoc"):
        tally.skip("Jelly files and all that is made of them: no protoc (Debian: protobuf-compiler)")
        return False
    try:
        importlib.import_module("google.protobuf")
    except ImportError:
        tally.skip("Jelly files and all that is made of them: no google.protobuf for Python (Debian: python3-protobuf)")
        return False
    subprocess.run(["protoc", "--proto_path", HERE, "--python_out", folder, "jelly.proto"], check=True)
    sys.path.insert(0, folder)
    return True


def there(tally, tools):
    """Those of the tools that are there."""
    found = []
    for tool, package in tools:
        if shutil.which(tool):
            found.append(tool)
        else:
            tally.skip("N-Quads by %s: it isn't there (Debian: %s)" % (tool, package))
    return found


def commands_of(program, tally):
    """The commands that the program has."""
    found = ["nquads"]
    for command in ("validate", "inspect"):
        if program.has(command):
            found.append(command)
        else:
            tally.skip(command + ": this jellyp doesn't have it")
    return found


def main():
    words = argparse.ArgumentParser(prog="interop/run", description="Holds jellyp against programs that nobody here wrote.")
    words.add_argument("binary", metavar="BINARY")
    words.add_argument("--encoder", default=ENCODER, help="the program that encodes made items (%(default)s)")
    words.add_argument("--summaries", default=SUMMARIES, help="the program that tries summaries on files (%(default)s)")
    words.add_argument("--seed", default="1", help="what all files are made from (1)")
    words.add_argument("--files", type=int, default=2000, help="how many Jelly files are made, and how many damaged (2000)")
    words.add_argument("--again", type=int, default=1000, help="how often several workers decode one file (1000)")
    words.add_argument("--texts", type=int, default=60, help="how many texts rapper and serdi read (60)")
    words.add_argument("--keep", default="/tmp/jellyp-interop", help="where the files of failures are kept")
    words = words.parse_args()
    tally = Tally(words.keep)
    with tempfile.TemporaryDirectory() as folder:
        program = Program(os.path.abspath(words.binary), folder)
        commands = commands_of(program, tally)
        if protobuf_is_there(tally, folder):
            import damage
            import faults
            import findings
            import jelly_peer
            import made_peer
            import nquads_peer
            import summaries_peer
            import workers_peer
            faults.run(program, commands, tally)
            jelly_peer.run(program, commands, tally, words.seed, words.files)
            made_peer.run(program, os.path.abspath(words.encoder), tally)
            damage.run(program, commands, tally, words.seed, words.files)
            summaries_peer.run(os.path.abspath(words.summaries), tally, words.seed, words.files // 5, folder)
            workers_peer.run(program, commands, tally, words.seed, words.files // 20, words.again)
            readers = there(tally, [("rapper", "raptor2-utils"), ("serdi", "serdi")])
            if readers:
                nquads_peer.run(program, readers, tally, words.seed, words.texts, folder)
            findings.run(program, readers, tally, folder)
    print("interop: %d passed, %d failed, %d skipped" % (tally.passed, tally.failed, tally.skipped))
    return 1 if tally.failed else 0


if __name__ == "__main__":
    sys.exit(main())
