#!/usr/bin/env python3
"""Makes the examples: Jelly files, byte by byte, and beside each the text that jellyp has to write for it.

Run it without words. It writes into the folder that it stands in, and wants nothing but Python 3. The files are as usual
producers write them: an IRI is cut behind its last '/' or '#' into a prefix and a name, each text stands once in a lookup
table, an id that the rule for 0 gives is written 0, and a term that is the last one at its position is left out. No
table here is ever full, so no slot is written again. The text is written from the same statements, and not from the file.
"""
import os

RDF = "http://www.w3.org/1999/02/22-rdf-syntax-ns#"
RDFS = "http://www.w3.org/2000/01/rdf-schema#"
XSD = "http://www.w3.org/2001/XMLSchema#"
FOAF = "http://xmlns.com/foaf/0.1/"
DCT = "http://purl.org/dc/terms/"
PROV = "http://www.w3.org/ns/prov#"
BIBO = "http://purl.org/ontology/bibo/"
SOSA = "http://www.w3.org/ns/sosa/"
QUDT = "http://qudt.org/"

# Physical types, and the logical types that are used here.
TRIPLES, QUADS, GRAPHS = 1, 2, 3
FLAT_TRIPLES, FLAT_QUADS = 1, 2


# The wire format of Protocol Buffers.

def varint(number):
    out = b""
    while number > 127:
        out += bytes([number % 128 + 128])
        number //= 128
    return out + bytes([number])


def number(field, value):
    """A number; 0 is left out."""
    return varint(field * 8) + varint(value) if value else b""


def message(field, body):
    return varint(field * 8 + 2) + varint(len(body)) + body


def text(field, value):
    """A text; the empty one is left out."""
    return message(field, value.encode()) if value else b""


# Terms: a kind and its texts.

def iri(value):
    return ("iri", value)


def blank(label):
    return ("blank", label)


def literal(lex, tag=None, datatype=None):
    return ("literal", lex, tag, datatype)


DEFAULT = ("default",)


# Their text.

def escaped(value, letters, others):
    return "".join(letters.get(c) or ("\\u%04X" % ord(c) if others(c) else c) for c in value)


def iri_text(value):
    return "<%s>" % escaped(value, {}, lambda c: c <= " " or c in '<>"{}|^`\\')


def string_text(value):
    letters = {"\t": "\\t", "\b": "\\b", "\n": "\\n", "\r": "\\r", "\f": "\\f", '"': '\\"', "\\": "\\\\"}
    return escaped(value, letters, lambda c: c < " " or c == "\x7f")


def label_text(label):
    plain = "ABCDEFGHIJKLMNOPQRSTUVWYZabcdefghijklmnopqrstuvwxyz0123456789"
    return "".join(chr(b) if chr(b) in plain else "X%02X" % b for b in label.encode()) or "X"


def term_text(term):
    if term[0] == "iri":
        return iri_text(term[1])
    if term[0] == "blank":
        return "_:" + label_text(term[1])
    _, lex, tag, datatype = term
    tail = "@" + tag if tag else "^^" + iri_text(datatype) if datatype not in (None, XSD + "string") else ""
    return '"%s"%s' % (string_text(lex), tail)


def line(terms):
    return " ".join(term_text(t) for t in terms if t != DEFAULT) + " .\n"


class File:
    """A file under way: the frames that are ended, the rows of the next one, and what the rows so far mean."""

    # Each table by the field number that its size has in the options and its entries in a row, and its size.
    NAMES, PREFIXES, DATATYPES = (9, 128), (10, 16), (11, 16)

    def __init__(self, physical, logical, version, name=""):
        self.frames, self.rows, self.lines = [], [], []
        self.tables = {self.NAMES: {}, self.PREFIXES: {}, self.DATATYPES: {}}
        self.last_prefix, self.last_name = 0, 0
        self.last_terms = [None] * 4
        self.graph = None
        sizes = b"".join(number(field, size) for field, size in self.tables)
        self.row(1, text(1, name) + number(2, physical) + sizes + number(14, logical) + number(15, version))

    def row(self, kind, body):
        self.rows.append(message(1, message(kind, body)))

    def cut(self, metadata=None):
        """Ends the frame."""
        body = b"".join(self.rows)
        for key, value in (metadata or {}).items():
            body += message(15, text(1, key) + message(2, value))
        self.frames.append(varint(len(body)) + body)
        self.rows = []

    def id_of(self, table, value):
        """The id of a text, whose entry is written where it is new. The ids of entries go up by one, so all are 0."""
        ids = self.tables[table]
        if value not in ids:
            ids[value] = len(ids) + 1
            assert ids[value] <= table[1]
            self.row(table[0], text(2, value))
        return ids[value]

    def iri(self, value):
        cut = max(value.rfind("/"), value.rfind("#")) + 1
        prefix, name = self.id_of(self.PREFIXES, value[:cut]), self.id_of(self.NAMES, value[cut:])
        body = number(1, 0 if prefix == self.last_prefix else prefix)
        body += number(2, 0 if name == self.last_name + 1 else name)
        self.last_prefix, self.last_name = prefix, name
        return body

    def literal(self, lex, tag, datatype):
        tail = number(3, self.id_of(self.DATATYPES, datatype)) if datatype else text(2, tag or "")
        return text(1, lex) + tail

    def term(self, term, first, default=None):
        """A term in a group whose IRI has this field number, and whose default graph has that one."""
        if term[0] == "iri":
            return message(first, self.iri(term[1]))
        if term[0] == "blank":
            return message(first + 1, term[1].encode())
        if term == DEFAULT:
            return message(default, b"")
        return message(first + 2, self.literal(*term[1:]))

    def statement(self, kind, terms):
        body = b""
        for position, term in enumerate(terms):
            if term != self.last_terms[position]:
                body += self.term(term, 4 * position + 1, 15)
                self.last_terms[position] = term
        self.row(kind, body)

    def triple(self, *terms):
        self.statement(2, terms)
        self.lines.append(line(terms if self.graph is None else terms + (self.graph,)))

    def quad(self, *terms):
        self.statement(3, terms)
        self.lines.append(line(terms))

    def begin(self, graph):
        self.row(4, self.term(graph, 1, 3))
        self.graph = graph

    def end(self):
        self.row(5, b"")
        self.graph = None

    def namespace(self, name, value):
        self.row(6, text(1, name) + message(2, self.iri(value)))
        self.lines.append("# prefix %s %s\n" % (string_text(name), iri_text(value)))

    def write(self, name):
        folder = os.path.dirname(os.path.abspath(__file__))
        with open(os.path.join(folder, name + ".jelly"), "wb") as out:
            out.write(b"".join(self.frames))
        with open(os.path.join(folder, name + ".nq"), "wb") as out:
            out.write("".join(self.lines).encode())


def one():
    """The smallest file that states something: one name, and one triple of it."""
    file = File(TRIPLES, 0, 1)
    file.rows = [bytes.fromhex("0A 0C 0A 0A 10 01 48 08 50 08 58 08 78 01"), bytes.fromhex("0A 05 4A 03 12 01 61"),
                 bytes.fromhex("0A 0C 12 0A 0A 00 2A 02 10 01 4A 02 10 01")]
    file.lines = [line([iri("a")] * 3)]
    file.cut()
    file.write("one")


def foaf():
    """A graph of people, with its namespaces declared, in one frame."""
    people = "https://example.org/people/"
    ada, charles, mary, club = iri(people + "ada"), iri(people + "charles"), blank("b0"), blank("genid-2")
    file = File(TRIPLES, FLAT_TRIPLES, 2, "people")
    file.namespace("foaf", FOAF)
    file.namespace("", people)
    for who, name, tag in [(ada, "Ada Lovelace", "en-GB"), (charles, "Charles Babbage", "en-GB")]:
        file.triple(who, iri(RDF + "type"), iri(FOAF + "Person"))
        file.triple(who, iri(FOAF + "name"), literal(name, tag))
    file.triple(charles, iri(FOAF + "nick"), literal("Bab", datatype=XSD + "string"))
    file.triple(charles, iri(FOAF + "age"), literal("79", datatype=XSD + "integer"))
    file.triple(charles, iri(FOAF + "knows"), ada)
    file.triple(ada, iri(FOAF + "name"), literal("エイダ・ラブレス", "ja"))
    file.triple(ada, iri("http://schema.org/birthDate"), literal("1815-12-10", datatype=XSD + "date"))
    file.triple(ada, iri(FOAF + "mbox"), iri("mailto:ada@example.org"))
    file.triple(ada, iri(FOAF + "knows"), charles)
    file.triple(ada, iri(FOAF + "knows"), mary)
    file.triple(mary, iri(FOAF + "name"), literal("Mary Somerville"))
    file.triple(club, iri(RDF + "type"), iri(FOAF + "Group"))
    file.triple(club, iri(FOAF + "member"), ada)
    file.triple(club, iri(FOAF + "member"), charles)
    file.triple(club, iri(RDFS + "comment"), literal('They wrote of "the engine":\n\tC:\\notes\\G.txt', "en"))
    file.cut()
    file.write("foaf")


def catalogue():
    """A library's catalogue: books in graphs by their sources, and what is known of the sources in the default graph."""
    library = "https://library.example/"
    city, hand = iri(library + "graph/city-2024"), iri(library + "graph/by-hand")
    flatland, change = iri(library + "book/978-0-14-043921-6"), iri(library + "book/978-3-15-009900-1")
    a, title = iri(RDF + "type"), iri(DCT + "title")
    file = File(QUADS, FLAT_QUADS, 1)
    file.quad(city, a, iri(PROV + "Entity"), DEFAULT)
    file.quad(city, iri(DCT + "issued"), literal("2024-03-01", datatype=XSD + "date"), DEFAULT)
    file.quad(city, iri(PROV + "wasAttributedTo"), blank("city"), DEFAULT)
    file.quad(hand, a, iri(PROV + "Entity"), DEFAULT)
    file.cut()
    file.quad(flatland, a, iri(BIBO + "Book"), city)
    file.quad(flatland, title, literal("Flatland: A Romance of Many Dimensions", "en"), city)
    file.quad(flatland, iri(DCT + "creator"), iri(library + "person/abbott"), city)
    file.quad(flatland, iri(BIBO + "numPages"), literal("117", datatype=XSD + "integer"), city)
    file.quad(change, a, iri(BIBO + "Book"), city)
    file.quad(change, title, literal("Die Verwandlung", "de"), city)
    file.quad(change, iri(DCT + "extent"), literal("77 S., 15 cm"), city)
    file.cut({"source": b"city"})
    file.quad(change, title, literal("The Metamorphosis", "en"), hand)
    file.quad(change, iri(DCT + "subject"), iri(library + "subject/changes of form"), hand)
    file.quad(change, iri(DCT + "available"), literal("true", datatype=XSD + "boolean"), hand)
    file.cut()
    file.write("catalogue")


def weather():
    """A day of two weather stations: a graph for each hour, of which one reaches over two frames."""
    station, hours = "https://weather.example/station/", "https://weather.example/hour/2024-06-01T"
    file = File(GRAPHS, FLAT_QUADS, 1)
    file.begin(DEFAULT)
    for name, place in [("north", "Nordtor"), ("south", "Südtor")]:
        file.triple(iri(station + name), iri(RDF + "type"), iri(SOSA + "Platform"))
        file.triple(iri(station + name), iri(RDFS + "label"), literal(place, "de"))
    file.end()
    file.cut()
    for hour, degrees in [("09", ["14.5", "15.1"]), ("10", ["16.0", "16.4"])]:
        graph = iri(hours + hour + ":00Z")
        file.begin(graph)
        for name, result in zip(["north", "south"], degrees):
            seen = blank(name + hour)
            file.triple(seen, iri(SOSA + "madeBySensor"), iri(station + name))
            file.triple(seen, iri(SOSA + "hasSimpleResult"), literal(result, datatype=XSD + "decimal"))
            file.triple(seen, iri(QUDT + "schema/qudt/unit"), iri(QUDT + "vocab/unit/DEG_C"))
            if result == "14.5":
                file.cut()
        file.triple(graph, iri(DCT + "created"), literal("2024-06-01T%s:05:00Z" % hour, datatype=XSD + "dateTime"))
        file.end()
    file.cut()
    file.write("weather")


if __name__ == "__main__":
    one()
    foaf()
    catalogue()
    weather()
