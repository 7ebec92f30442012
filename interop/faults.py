"""Files that were made for one fault each: those of the table in docs/FORMAT.md, files that only a strict reading refuses,
and files about the longest frame that there may be.

Which fault each file has, and where, is said here or in that table, and not found by the plain reader.
"""
import os
import re

import jelly_pb2 as jelly
import making
import reading
from google.protobuf.internal.encoder import _VarintBytes as varint
from jelly_peer import parsed
from making import GRAPHS, QUADS, TRIPLES
from program import FAULTS, STRICT, difference, fault_of

TOP = os.path.dirname(os.path.dirname(os.path.abspath(__file__)))
ROW = re.compile(r"\| ([0-9]+) \| ([A-Z]\w+) \| .* \| ([^|]*) \| ([0-9]+), ([0-9]+) \|\n")
# How the table calls the options row of a TRIPLES and of a GRAPHS file.
CALLED = {"**T**": "0A 0C 0A 0A 10 01 48 08 50 08 58 08 78 01", "**G**": "0A 0C 0A 0A 10 03 48 08 50 08 58 08 78 01"}
MOST = 2**27


def table():
    """Of each row of the table the name, the file's bytes, and the place."""
    with open(os.path.join(TOP, "docs/FORMAT.md")) as text:
        for line in text:
            found = ROW.fullmatch(line)
            if not found:
                continue
            said = found[3].replace("`", "")
            if os.path.exists(os.path.join(TOP, said)):
                with open(os.path.join(TOP, said), "rb") as file:
                    data = file.read()
            else:
                for name, row in CALLED.items():
                    said = said.replace(name, row)
                data = bytes.fromhex(said)
            yield found[2], data, (int(found[4]), int(found[5]))


def refused(said, place, name, out):
    """What is wrong with an answer that has to be this fault, after this output; empty where nothing is."""
    status, written, errors = said
    if status != 1 or fault_of(errors) != (place, name):
        return "status %d, %r and %s at %s is meant" % (status, errors, name, place)
    return difference(written, out)


def check_table(program, commands, tally):
    rows = list(table())
    names = [name for name, _, _ in rows]
    tally.check("" if names == FAULTS else "it has %s" % names, "the table of faults has a file for each")
    for name, data, place in rows:
        options = ["--strict=1"] if name in STRICT else []
        for command in [command for command in commands if command != "inspect" or not options]:
            said = program.run(command, data, options)
            # These depend on the rows before, so `inspect` doesn't meet them.
            if command == "inspect" and FAULTS.index("OptionsDiffer") <= FAULTS.index(name) < FAULTS.index("FrameTooLong"):
                tally.check("" if said[0] == 0 else "%r" % (said,), "inspect of the file of " + name, data)
            else:
                tally.check(refused(said, place, name, b""), "%s of the file of %s" % (command, name), data)
        if options:
            found = fault_of(program.run("nquads", data)[2])
            unasked = "it is so unasked" if found and found[1] == name else ""
            tally.check(unasked, "the file of %s, not strictly" % name, data)


class File:
    """A file of one frame whose options hold in a strict reading, in which plain terms stand, and what is to be tried."""

    def __init__(self, physical, **values):
        self.frame = jelly.RdfStreamFrame()
        options = self.frame.rows.add().options
        options.physical_type, options.version = physical, 1
        options.max_name_table_size = options.max_prefix_table_size = options.max_datatype_table_size = 8
        for name, value in values.items():
            setattr(options, name, value)
        self.frame.rows.add().name.value = "a"

    def triple(self, **terms):
        """A row of which each term is the IRI <a>, or what is asked for: the name of a kind of term."""
        self.fill(self.frame.rows.add().triple, "spo", terms)
        return self

    def quad(self, **terms):
        self.fill(self.frame.rows.add().quad, "spog", terms)
        return self

    def graph(self, kind):
        self.put(self.frame.rows.add().graph_start, "g", kind)
        return self

    def namespace(self):
        declared = self.frame.rows.add().namespace
        declared.name = "p"
        declared.value.name_id = 1
        return self

    def fill(self, message, positions, terms):
        for position in positions:
            self.put(message, position, terms.get(position, "iri"))

    def put(self, message, position, kind):
        """A kind is that of a term, or that of a triple term with what stands in it, as ("s", "literal")."""
        inner = {}
        if isinstance(kind, tuple):
            inner, kind = dict([kind]), "triple_term"
        field = "%s_%s" % (position, kind)
        if kind == "bnode":
            setattr(message, field, "b")
            return
        term = getattr(message, field)
        term.SetInParent()
        if kind == "iri":
            term.name_id = 1
        elif kind == "literal":
            term.lex = "x"
        elif kind == "triple_term":
            self.fill(term, "spo", inner)


def strict_files():
    """Files that are right as long as nobody reads them strictly, and the row and the fault where somebody does, if any."""
    star, general = {"rdf_star": True}, {"generalized_statements": True}
    both = {**star, **general}
    for size in (0, 1, 7, 8, 65536):
        # Without a name table there is no name.
        file = File(TRIPLES, max_name_table_size=size)
        if size == 0:
            del file.frame.rows[1]
        yield "a name table of %d" % size, file, size < 8 and (1, "SmallNames")
    yield "small other tables", File(TRIPLES, max_prefix_table_size=0, max_datatype_table_size=0), None
    twice = File(TRIPLES, max_name_table_size=7, logical_type=2)
    yield "a small name table and another logical type", twice, (1, "SmallNames")
    for physical in (TRIPLES, QUADS, GRAPHS):
        go = (0, 1, 3, 13) if physical == TRIPLES else (0, 2, 4, 14, 114)
        for logical in (0, 1, 2, 3, 4, 5, 13, 14, 77, 113, 114, 115, 2**31 - 1):
            name = "the logical type %d with physical type %d" % (logical, physical)
            yield name, File(physical, logical_type=logical), logical not in go and (1, "BadLogical")
    for values in ({}, star, general, both):
        told = " and ".join(values) or "neither flag"
        for position in "spo":
            fault = "NoStar" if "rdf_star" not in values else "NotPlain" if position == "p" and values == star else None
            file = File(TRIPLES, **values).triple(**{position: "triple_term"})
            yield "a triple term as %s with %s" % (position, told), file, fault and (3, fault)
        plain = None if "generalized_statements" in values else (3, "NotPlain")
        yield "a literal subject with " + told, File(TRIPLES, **values).triple(s="literal"), plain
        yield "a literal predicate with " + told, File(TRIPLES, **values).triple(p="literal"), plain
        yield "a blank predicate with " + told, File(QUADS, **values).quad(p="bnode"), plain
        yield "a literal graph with " + told, File(QUADS, **values).quad(g="literal"), plain
        yield "a graph start of a literal with " + told, File(GRAPHS, **values).graph("literal").triple(), plain
        for inner in (("s", "literal"), ("p", "bnode"), ("p", "triple_term")):
            within = plain if "rdf_star" in values else (3, "NoStar")
            yield "%s %s in a triple term with %s" % (*inner, told), File(TRIPLES, **values).triple(o=inner), within
        file = File(QUADS, **values).quad(s="bnode", o="literal", g="bnode").quad(g="default_graph")
        yield "usual terms with " + told, file, None
        yield "usual graphs with " + told, File(GRAPHS, **values).graph("default_graph").triple(s="bnode", o="bnode"), None
    yield "a literal subject before a triple term", File(TRIPLES).triple(s="literal", p="triple_term"), (3, "NotPlain")
    yield "a triple term before a literal predicate", File(TRIPLES).triple(s="triple_term", p="literal"), (3, "NoStar")
    yield "a namespace of version 1", File(TRIPLES).triple().namespace(), (4, "EarlyNamespace")
    yield "a namespace of version 2", File(TRIPLES, version=2).triple().namespace(), None


def check_strict(program, commands, tally):
    for name, file, fault in strict_files():
        data = making.file_bytes([file.frame])
        items, wrong = reading.read(parsed([file.frame]))
        assert wrong is None, "%s: %s" % (name, wrong)
        status, out, errors = program.run("nquads", data)
        ended = "" if (status, errors) == (0, b"") else "status %d, %r " % (status, errors)
        tally.check(ended + difference(out, reading.text(items)), "nquads of " + name, data)
        for command in ("nquads", "validate"):
            if command not in commands:
                continue
            plain, strict = program.run(command, data), program.run(command, data, ["--strict=1"])
            if fault:
                row, kind = fault
                before = reading.text([item for item in items if item[0][1] < row]) if command == "nquads" else b""
                tally.check(refused(strict, (1, row), kind, before), "strictly, %s of %s" % (command, name), data)
            else:
                differs = "" if strict == plain else "%r instead of %r" % (strict, plain)
                tally.check(differs, "strictly, %s of %s" % (command, name), data)


def long_frames():
    """Files with a frame about the longest: their name, what stands before its length, the length, how many bytes of it are
    there, what stands after it, and its fault."""
    one = making.file_bytes([File(TRIPLES).triple().frame])
    more = making.file_bytes([jelly.RdfStreamFrame(rows=[jelly.RdfStreamRow(triple=jelly.RdfTriple())])])
    yield "a frame of 2^27 bytes", one, MOST, MOST, more, None
    yield "a frame of 2^27 bytes, one of them missing", one, MOST, MOST - 1, b"", "Truncated"
    yield "a frame of 2^27 + 1 bytes", one, MOST + 1, MOST + 1, more, "FrameTooLong"
    yield "a length of 2^27 + 1 and no bytes", one, MOST + 1, 0, b"", "FrameTooLong"
    yield "a length of 2^64 - 1 and no bytes", b"", 2**64 - 1, 0, b"", "FrameTooLong"


def check_long(program, commands, tally):
    for name, before, length, there, after, fault in long_frames():
        with open(program.file, "wb") as file:
            # The frame is one field of metadata, whose tag and length take five bytes, and else zeros, which are a hole.
            file.write(before + varint(length))
            file.write((b"\x7a" + varint(length - 5))[:there])
            file.seek(len(before) + len(varint(length)) + there)
            file.write(after)
            file.truncate()
        frame = 2 if before else 1
        text = b"<a> <a> <a> .\n"
        for command in commands:
            said = program.run(command)
            if fault:
                out = text if before and command == "nquads" else b""
                tally.check(refused(said, (frame, 0), fault, out), "%s of %s" % (command, name))
                continue
            wants = {"nquads": text * 2, "validate": b"valid: 3 frames, 2 statements, 0 namespaces\n"}
            right = said[0] == 0 and said[2] == b"" and said[1] == wants.get(command, said[1])
            tally.check("" if right else "%r" % (said,), "%s of %s" % (command, name))
    os.remove(program.file)


def run(program, commands, tally):
    print("files of one fault each: %s" % ", ".join(commands))
    check_table(program, commands, tally)
    check_strict(program, commands, tally)
    check_long(program, commands, tally)
