"""Files that the proved encoder wrote of the made items: protobuf's library reads in them the rows that a plain encoder
writes, and jellyp's N-Quads of them is the items' own text.

The encoder here goes by the rules of the format alone, over lists and in the plainest way. It shares nothing with jellyp.
"""
import os
import subprocess

import jelly_pb2 as jelly
import reading
from program import difference

COUNTS = (0, 1, 2, 3, 1000, 20000)
PERS = (1, 7, 256)
SIZES = {"name": 4000, "prefix": 150, "datatype": 32}
BASE = "http://example.org/"
ENTRIES = {"name": jelly.RdfNameEntry, "prefix": jelly.RdfPrefixEntry, "datatype": jelly.RdfDatatypeEntry}


def mixed(i, j):
    """A number that looks like chance."""
    return (i * 7919 + j * 104729) % 1000003


def node(i, j):
    return ("iri", "%sv%d/n%d" % (BASE, mixed(i, j) % 200, mixed(i, j + 1) % 9000))


def made_item(i):
    """The made item of a number, as reading.py has items."""
    if i % 1000 == 0:
        return ("namespace", "p%d" % (i // 1000), "%sv%d/" % (BASE, mixed(i, 0) % 150))
    lex = str(mixed(i, 5))
    kinds = (node(i, 5), ("blank", "b%d" % (mixed(i, 6) % 5000)),
             ("literal", lex, None, "%st/%d" % (BASE, mixed(i, 7) % 40)), ("literal", "text " + lex, "en", None))
    return ("statement", node(i // 4, 1), ("iri", "%sp/%d" % (BASE, mixed(i, 3) % 40)), kinds[mixed(i, 4) % 4], ("default",))


class Encoder:
    """The rows so far, and what the next ones go by. A table is the list of its slots' texts; slot 1 stands first."""

    def __init__(self):
        options = jelly.RdfStreamOptions(physical_type=1, generalized_statements=True, rdf_star=True, version=2)
        for table, size in SIZES.items():
            setattr(options, "max_%s_table_size" % table, size)
        self.rows = []
        self.add("options", options)
        self.tables = {table: [None] * size for table, size in SIZES.items()}
        self.last_entry = dict.fromkeys(SIZES, 0)
        self.last_prefix = self.last_name = 0
        self.last_terms = [None, None, None]
        self.used = set()

    def add(self, kind, message):
        row = jelly.RdfStreamRow()
        getattr(row, kind).CopyFrom(message)
        self.rows.append(row)

    def slot(self, table, text):
        """The slot of a text, which the item then uses; an entry is written where the table doesn't hold it."""
        texts = self.tables[table]
        number = texts.index(text) + 1 if text in texts else self.enter(table, text)
        self.used.add((table, number))
        return number

    def enter(self, table, text):
        texts, last = self.tables[table], self.last_entry[table]
        turn = list(range(last + 1, len(texts) + 1)) + list(range(1, last + 1))
        number = next(slot for slot in turn if (table, slot) not in self.used)
        texts[number - 1], self.last_entry[table] = text, number
        self.add(table, ENTRIES[table](id=0 if number == last + 1 else number, value=text))
        return number

    def iri(self, message, text):
        cut = max(text.rfind("/"), text.rfind("#")) + 1
        hidden = cut == 0 and self.last_prefix == 0
        prefix = 0 if hidden else self.slot("prefix", text[:cut])
        name = self.slot("name", text[cut:])
        message.SetInParent()
        message.prefix_id = 0 if prefix == self.last_prefix else prefix
        message.name_id = 0 if name == self.last_name + 1 else name
        self.last_prefix, self.last_name = prefix, name

    def term(self, message, position, term):
        if term[0] == "iri":
            self.iri(getattr(message, position + "_iri"), term[1])
        elif term[0] == "blank":
            setattr(message, position + "_bnode", term[1])
        else:
            literal = getattr(message, position + "_literal")
            literal.SetInParent()
            literal.lex = term[1]
            if term[2] is not None:
                literal.langtag = term[2]
            elif term[3] is not None:
                literal.datatype = self.slot("datatype", term[3])

    def item(self, item):
        self.used.clear()
        if item[0] == "namespace":
            declared = jelly.RdfNamespaceDeclaration(name=item[1])
            self.iri(declared.value, item[2])
            self.add("namespace", declared)
            return
        triple = jelly.RdfTriple()
        for number, position in enumerate("spo"):
            if item[number + 1] != self.last_terms[number]:
                self.term(triple, position, item[number + 1])
        self.last_terms = list(item[1:4])
        self.add("triple", triple)


def frames_of(items, per):
    """The rows of each frame."""
    encoder, frames = Encoder(), []
    for number, item in enumerate(items, 1):
        encoder.item(item)
        if number % per == 0:
            frames.append(encoder.rows)
            encoder.rows = []
    return frames + [encoder.rows] if encoder.rows else frames


def cut(data):
    """The frames of a file, each as its bytes stand there; or None where a length isn't right."""
    frames, at = [], 0
    while at < len(data):
        length = shift = 0
        while True:
            if at == len(data) or shift > 63:
                return None
            byte, at = data[at], at + 1
            length, shift = length | (byte & 127) << shift, shift + 7
            if byte < 128:
                break
        if length > len(data) - at:
            return None
        frames.append(data[at:at + length])
        at += length
    return frames


def rows_differ(frames, wanted):
    """Where the rows that protobuf reads aren't those of the plain encoder; and whether the bytes are others all the same."""
    if frames is None or len(frames) != len(wanted):
        return "%s frames instead of %d" % (frames and len(frames), len(wanted))
    for number, (frame, rows) in enumerate(zip(frames, wanted), 1):
        read = jelly.RdfStreamFrame.FromString(frame)
        for place, (got, want) in enumerate(zip(read.rows, rows), 1):
            if got != want:
                return "frame %d, row %d: %r instead of %r" % (number, place, str(got), str(want))
        if len(read.rows) != len(rows):
            return "frame %d: %d rows instead of %d" % (number, len(read.rows), len(rows))
        if frame != jelly.RdfStreamFrame(rows=rows).SerializeToString():
            return "frame %d: the same rows in other bytes" % number
    return ""


def run(program, encoder, tally):
    if not os.access(encoder, os.X_OK):
        tally.skip("files of the encoder: %s isn't built" % encoder)
        return
    print("made items of %s, up to %d" % (os.path.basename(encoder), max(COUNTS)))
    items = [made_item(i) for i in range(max(COUNTS))]
    for count in COUNTS:
        text = "".join(map(reading.item_text, items[:count])).encode()
        for per in PERS:
            name = "%d made items, %d in a frame" % (count, per)
            done = subprocess.run([encoder, str(count), str(per)], stdin=subprocess.DEVNULL, capture_output=True, timeout=60)
            ended = "" if (done.returncode, done.stderr) == (0, b"") else "status %d, %r " % (done.returncode, done.stderr)
            tally.check(ended + rows_differ(cut(done.stdout), frames_of(items[:count], per)), "rows of " + name, done.stdout)
            for options in ([], ["--strict=1"]):
                status, out, errors = program.run("nquads", done.stdout, options)
                ended = "" if (status, errors) == (0, b"") else "status %d, %r " % (status, errors)
                what = " ".join(["nquads", *options, "of", name])
                tally.check(ended + difference(out, text), what, done.stdout)
