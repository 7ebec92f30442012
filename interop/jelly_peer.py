"""Jelly files that protobuf's own library wrote: jellyp's text of each is that of the plain reader (reading.py).

Each is read strictly, too: what jellyp writes before the first fault, and that fault, are the plain reader's.
"""
import random

import jelly_pb2 as jelly
import making
import reading
from program import STRICT, difference, fault_of


# What a report counts, and the kind of row.
COUNTED = [("options rows", "options"), ("triples", "triple"), ("quads", "quad"), ("graph starts", "graph_start"),
           ("graph ends", "graph_end"), ("namespaces", "namespace"), ("name entries", "name"),
           ("prefix entries", "prefix"), ("datatype entries", "datatype")]


def parsed(frames):
    """The frames as protobuf reads them back from their bytes: lists of rows."""
    return [list(jelly.RdfStreamFrame.FromString(frame.SerializeToString()).rows) for frame in frames]


def report_valid(frames, items):
    namespaces = sum(item[0] == "namespace" for _, item in items)
    statements = len(items) - namespaces
    return "valid: %d frames, %d statements, %d namespaces\n" % (len(frames), statements, namespaces)


def report_inspect(frames, data):
    rows = [row for frame in frames for row in frame.rows]
    kinds = [row.WhichOneof("row") for row in rows]
    said = ["no", "yes"]
    metadata = sum(len(frame.metadata) for frame in frames)
    lines = ["bytes: %d" % len(data), "frames: %d" % len(frames), "metadata: %d" % metadata]
    if rows:
        o = rows[0].options
        lines += ["options: physical %s, logical %d, version %d, generalized %s, star %s"
                  % (("", "TRIPLES", "QUADS", "GRAPHS")[o.physical_type], o.logical_type, o.version,
                     said[o.generalized_statements], said[o.rdf_star]),
                  "tables: names %d, prefixes %d, datatypes %d"
                  % (o.max_name_table_size, o.max_prefix_table_size, o.max_datatype_table_size),
                  'stream name: "%s"' % reading.string_text(o.stream_name)]
    else:
        lines += ["options: none"]
    for name, kind in COUNTED:
        lines.append("%s: %d" % (name, kinds.count(kind)))
    return "\n".join(lines) + "\n"


def nested(depth):
    """A file of one statement whose object is a triple term, in which another one stands, and so on."""
    frame = jelly.RdfStreamFrame()
    options = frame.rows.add().options
    options.physical_type, options.version, options.max_name_table_size = making.TRIPLES, 2, 8
    frame.rows.add().name.value = "a"
    triple = frame.rows.add().triple
    for level in range(depth + 1):
        triple.s_iri.name_id = triple.p_iri.name_id = 1
        if level < depth:
            triple = triple.o_triple_term
    triple.o_bnode = "b"
    return [frame]


def check(program, commands, tally, name, frames):
    """Runs each command over one file."""
    data = making.file_bytes(frames)
    items, fault = reading.read(parsed(frames))
    assert fault is None, "%s: the maker made a faulty file: %s" % (name, fault)
    wants = {"nquads": reading.text(items), "validate": report_valid(frames, items).encode(),
             "inspect": report_inspect(frames, data).encode()}
    for command in commands:
        status, out, errors = program.run(command, data)
        ended = "" if (status, errors) == (0, b"") else "status %d, %r " % (status, errors)
        tally.check(ended + difference(out, wants[command]), "%s of %s" % (command, name), data)
        if command != "inspect":
            said = program.run(command, options=["--strict=0"])
            differs = "" if said == (status, out, errors) else "%r" % (said,)
            tally.check(differs, "%s --strict=0 of %s" % (command, name), data)


def check_strictly(program, commands, tally, name, frames):
    """Runs each command that has the option over one file, and answers the fault's names, if there is one."""
    data = making.file_bytes(frames)
    items, fault = reading.read(parsed(frames), strict=True)
    wants = {"nquads": reading.text(items), "validate": b"" if fault else report_valid(frames, items).encode()}
    for command in wants.keys() & set(commands):
        status, out, errors = program.run(command, data, ["--strict=1"])
        found = fault_of(errors)
        if fault is None:
            wrong = "" if (status, errors) == (0, b"") else "status %d, %r and no fault is meant " % (status, errors)
        else:
            right = status == 1 and found and found[0] == fault[0] and found[1] in fault[1]
            wrong = "" if right else "status %d, %r and %s is meant " % (status, errors, fault)
        tally.check(wrong + difference(out, wants[command]), "%s --strict=1 of %s" % (command, name), data)
    return fault[1] if fault else set()


def all_fields():
    """Each field of each message of the schema, by its name. A map's entries are messages of protobuf's own."""
    return {field.full_name for message in jelly.DESCRIPTOR.message_types_by_name.values() for field in message.fields}


def fields_of(message):
    """The fields that are set in a message and in those within it."""
    for field, value in message.ListFields():
        yield field.full_name
        if field.name != "metadata" and field.message_type:
            for inner in value if field.label == field.LABEL_REPEATED else [value]:
                yield from fields_of(inner)


def run(program, commands, tally, seed, count):
    print("%d Jelly files of protobuf's library, from seed %s: %s" % (count, seed, ", ".join(commands)))
    check(program, commands, tally, "a file without frames", [])
    check(program, commands, tally, "an empty frame", [jelly.RdfStreamFrame()])
    check(program, commands, tally, "triple terms 32 deep", nested(32))
    missing, unmet = all_fields(), set(STRICT)
    for number in range(count):
        frames = making.make(random.Random("%s, file %d" % (seed, number)), 1 + number % 3)
        check(program, commands, tally, "file %d of seed %s" % (number, seed), frames)
        unmet -= check_strictly(program, commands, tally, "file %d of seed %s" % (number, seed), frames)
        if missing:
            missing.difference_update(*map(fields_of, frames))
    # Texts that the page of lines has no room for, and lines that go over its end.
    for number in range(count // 200):
        frames = making.make(random.Random("%s, long file %d" % (seed, number)), 1 + number % 3, rows=400, longest=30000)
        check(program, commands, tally, "long file %d of seed %s" % (number, seed), frames)
    tally.check("no file has " + ", ".join(sorted(missing)) if missing else "", "every field stands in some file")
    tally.check("no file has " + ", ".join(sorted(unmet)) if unmet else "", "every fault of a strict reading is met")
