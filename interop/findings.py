"""The findings: small files of which jellyp and a peer think otherwise. findings/README.md says why for each.

jellyp still has to write what stands beside the file (NAME.said: its output, and then its line on standard error), and the
peer still has to think otherwise. Where it doesn't, as a later version of it may, that is said and counted as skipped.
"""
import os

import jelly_pb2 as jelly
import nquads_peer
import reading
from damage import varint

FOLDER = os.path.join(os.path.dirname(os.path.abspath(__file__)), "findings")
# Which peers think otherwise, of each file.
PEERS = {
    "field-twice": ["protobuf"],
    "two-of-a-oneof": ["protobuf"],
    "other-wire-type": ["protobuf"],
    "group": ["protobuf"],
    "wide-varint": ["protobuf"],
    "deep-triple-term": ["protobuf"],
    "relative-iri": ["rapper", "serdi"],
    "space-in-an-iri": ["rapper", "serdi"],
    "triple-term": ["rapper", "serdi"],
    "backslash-in-an-iri": ["rapper"],
    "zero-in-a-text": ["rapper"],
    "noncharacter-in-a-text": ["rapper"],
    "apostrophe-in-a-comment": ["rapper"],
    "long-language-tag": ["rapper"],
}


def read(name):
    with open(os.path.join(FOLDER, name), "rb") as file:
        return file.read()


def items_of(data):
    """What protobuf and the plain reader find in a file, and the first fault if there is one."""
    frames, at = [], 0
    while at < len(data):
        length, at = varint(data, at)
        frames.append(list(jelly.RdfStreamFrame.FromString(data[at:at + length]).rows))
        at += length
    return reading.read(frames)


def run(program, peers, tally, folder):
    print("%d findings" % len(PEERS))
    for name, differ in PEERS.items():
        data, said = read(name + ".jelly"), read(name + ".said")
        _, out, errors = program.run("nquads", data)
        tally.check("" if out + errors == said else "it writes %r" % (out + errors), "finding " + name, data)
        items, fault = items_of(data)
        for peer in differ:
            if peer == "protobuf":
                agrees = fault is not None
            elif peer in peers:
                agrees = not nquads_peer.check(peer, (folder + "/text.nq", out), items)
            else:
                continue
            if agrees:
                tally.skip("finding %s: this %s thinks as jellyp does" % (name, peer))
            else:
                tally.check("", "finding " + name)
