"""Makes Jelly files at random with protobuf's own library: every kind of row, with every field.

The files are right: an id names a filled slot, and a term is left out only where there is one to repeat. To see to that,
a maker keeps which slots are filled and what the last ids are, but no text; what a file says is for reading.py to find.
"""
import jelly_pb2 as jelly
from google.protobuf.internal.encoder import _VarintBytes as varint

TRIPLES, QUADS, GRAPHS = 1, 2, 3
TABLES = ("name", "prefix", "datatype")
XSD_STRING = "http://www.w3.org/2001/XMLSchema#string"

# Letters for texts: all that is written otherwise somewhere, and one or more of each length in UTF-8.
ANY = 'abcXYZ019 _-./#:%~"\\<>{}|^`\'' + "\0\1\t\b\n\r\f\x1f\x7f" + "\x80é\u2028日\ufeff\ufffe\uffff😀\U0010ffff"
# What rapper and serdi take in a literal, in a comment and in an IRI; nquads_peer.py says why.
PLAIN_STRING = "".join(c for c in ANY if c not in "\0\ufffe\uffff")
PLAIN_COMMENT = ANY.replace("'", "")
PLAIN_IRI = 'abcXYZ019_-./#:%~"{}|^`\'' + "\1\t\x1f\x7f\x80é\u2028日\ufeff😀\U0010ffff"
LETTERS = "abcXYZ"


# Fields that no message has, one of each wire type: what a later schema may add.
UNKNOWN = (
    varint(100 * 8) + varint(2**64 - 1),
    varint(20 * 8 + 1) + b"8 bytes.",
    varint(5000 * 8 + 2) + varint(3) + b"\xff\0\x0a",
    varint((2**29 - 1) * 8 + 5) + b"four",
)


def file_bytes(frames):
    """The delimited file: each frame after its length."""
    bodies = [frame.SerializeToString() for frame in frames]
    return b"".join(varint(len(body)) + body for body in bodies)


class Maker:
    """A file under way: its frames, and what its next row may refer to."""

    def __init__(self, random, physical, plain, longest):
        self.random = random
        self.physical = physical
        # How many letters a text has now and then.
        self.longest = longest
        # Whether only what RDF 1.1 has, and what rapper and serdi take, may stand in it.
        self.plain = plain
        self.frames = [jelly.RdfStreamFrame()]
        self.filled = {table: set() for table in TABLES}
        self.last_entry = dict.fromkeys(TABLES, 0)
        self.last_prefix = self.last_name = 0
        self.set_before = set()
        self.graph_open = False
        self.options = self.make_options()
        self.sizes = {table: getattr(self.options, "max_%s_table_size" % table) for table in TABLES}
        self.add("options", self.options)
        for table in TABLES:
            if self.sizes[table]:
                self.entry(table)

    def chance(self, part):
        return self.random.random() < part

    # Texts.

    def text(self, letters):
        length = self.random.choice((0, 1, 2, 3, 5, 8, 13, 21, 40, 70))
        if self.chance(0.01):
            length = self.longest
        return "".join(self.random.choice(letters if self.chance(0.4) else LETTERS) for _ in range(length))

    def tag(self):
        letters = [LETTERS] + [LETTERS + "019"] * self.random.randint(0, 2)
        return "-".join("".join(self.random.choices(group, k=self.random.randint(1, 8))) for group in letters)

    def entry_text(self, table):
        if not self.plain:
            return XSD_STRING if table == "datatype" and self.chance(0.2) else self.text(ANY)
        if table == "name":
            return self.text(PLAIN_IRI)
        if table == "datatype" and self.chance(0.2):
            return XSD_STRING
        return self.random.choice(("http://example.org/", "urn:x:", "https://é.example/a#")) + self.text(PLAIN_IRI)

    # Rows.

    def make_options(self):
        r = self.random
        # Of half of the files the first row holds in a strict reading, too, and all the rest of some of them.
        holds = self.chance(0.5)
        options = jelly.RdfStreamOptions(physical_type=self.physical, version=r.choice((1, 2, 2)))
        options.max_name_table_size = r.choice((8, 20, 65536) if holds else (1, 3, 8, 20, 65536))
        options.max_prefix_table_size = r.choice((1, 3, 8, 65536) if self.plain else (0, 1, 3, 8, 65536))
        options.max_datatype_table_size = r.choice((0, 1, 3, 8, 65536))
        options.stream_name = self.text(ANY)
        options.generalized_statements = self.chance(0.6)
        options.rdf_star = self.chance(0.6)
        options.logical_type = r.choice(jelly.LogicalStreamType.values() + [77])
        if holds:
            options.logical_type = r.choice((0, 1, 3, 13) if self.physical == TRIPLES else (0, 2, 4, 14, 114))
        return options

    def with_unknown(self, message):
        """Now and then a field that the message doesn't know."""
        if self.chance(0.03):
            message.MergeFromString(self.random.choice(UNKNOWN))

    def add(self, kind, message):
        row = self.frames[-1].rows.add()
        self.with_unknown(message)
        getattr(row, kind).CopyFrom(message)
        self.with_unknown(row)

    def entry(self, table):
        size, follows = self.sizes[table], self.last_entry[table] + 1
        number = 0 if follows <= size and self.chance(0.7) else self.random.randint(1, min(size, 30))
        self.last_entry[table] = number or follows
        self.filled[table].add(number or follows)
        kind = {"name": jelly.RdfNameEntry, "prefix": jelly.RdfPrefixEntry, "datatype": jelly.RdfDatatypeEntry}[table]
        self.add(table, kind(id=number, value=self.entry_text(table)))

    def namespace(self):
        declared = jelly.RdfNamespaceDeclaration(name=self.text(PLAIN_COMMENT if self.plain else ANY))
        self.iri(declared.value)
        self.add("namespace", declared)

    def graph_start(self):
        start = jelly.RdfGraphStart()
        self.term(start, "g")
        self.add("graph_start", start)
        self.graph_open = True

    def graph_end(self):
        self.add("graph_end", jelly.RdfGraphEnd())
        self.graph_open = False

    def statement(self):
        kind, message, positions = ("triple", jelly.RdfTriple(), "spo")
        if self.physical == QUADS:
            kind, message, positions = ("quad", jelly.RdfQuad(), "spog")
        for position in positions:
            if position not in self.set_before or self.chance(0.7):
                self.term(message, position)
                self.set_before.add(position)
        self.add(kind, message)

    # Terms.

    def term(self, message, position, depth=0):
        kinds = {"s": ["iri", "bnode"], "p": ["iri"], "o": ["iri", "bnode", "literal"],
                 "g": ["iri", "bnode", "default_graph"]}[position]
        if not self.plain and self.chance(0.3):
            kinds = ["iri", "bnode", "literal", "default_graph" if position == "g" else "triple_term"]
        if depth == 4 or (depth == 3 and self.chance(0.9)):
            kinds = ["iri", "bnode", "literal"]
        kind = self.random.choice(kinds)
        field = "%s_%s" % (position, kind)
        if kind == "bnode":
            setattr(message, field, self.text(ANY))
            return
        getattr(message, field).SetInParent()
        if kind == "iri":
            self.iri(getattr(message, field))
        elif kind == "literal":
            self.literal(getattr(message, field))
        elif kind == "triple_term":
            for inner in "spo":
                self.term(getattr(message, field), inner, depth + 1)
        self.with_unknown(getattr(message, field))

    def iri(self, iri):
        iri.SetInParent()
        # Prefix id 0 is the empty prefix as long as there was no other, and then the IRI would be a relative one.
        prefixes = list(self.filled["prefix"]) + ([] if self.plain and self.last_prefix == 0 else [0] * 3)
        names = list(self.filled["name"]) + [0] * 3 * (self.last_name + 1 in self.filled["name"])
        iri.prefix_id, iri.name_id = self.random.choice(prefixes), self.random.choice(names)
        self.last_prefix = iri.prefix_id or self.last_prefix
        self.last_name = iri.name_id or self.last_name + 1

    def literal(self, literal):
        literal.lex = self.text(PLAIN_STRING if self.plain else ANY)
        kind = self.random.choice(("simple", "langtag", "datatype"))
        if kind == "langtag":
            literal.langtag = self.tag()
        elif kind == "datatype" and self.filled["datatype"]:
            literal.datatype = self.random.choice(list(self.filled["datatype"]))

    # Files.

    def step(self):
        """The next row, or the end of a frame."""
        r = self.random.random()
        if r < 0.04:
            self.frames.append(jelly.RdfStreamFrame())
            if self.chance(0.3):
                self.frames[-1].metadata[self.text(ANY)] = self.text(ANY).encode()
            self.with_unknown(self.frames[-1])
        elif r < 0.06:
            self.add("options", self.options)
        elif r < 0.32:
            self.entry(self.random.choice([table for table in TABLES if self.sizes[table]]))
        elif r < 0.37:
            self.namespace()
        elif self.physical == GRAPHS and (not self.graph_open or r < 0.45):
            self.graph_end() if self.graph_open else self.graph_start()
        else:
            self.statement()


def make(random, physical, plain=False, rows=60, longest=5000):
    """The frames of a file of about so many rows."""
    maker = Maker(random, physical, plain, longest)
    for _ in range(random.randint(0, 2 * rows)):
        maker.step()
    return maker.frames
