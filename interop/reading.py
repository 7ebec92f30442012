"""Reads Jelly in the plainest way, from protobuf's objects, and says what jellyp has to write.

It goes over the rows one after another with three dictionaries for the tables. It shares nothing with jellyp, nor with
making.py. The rules are those of docs/FORMAT.md: chapters 6 to 9 for rows, 10 for their text, and 11 for a strict reading.
"""
import re

XSD_STRING = "http://www.w3.org/2001/XMLSchema#string"
TAG = re.compile(r"[A-Za-z]+(-[A-Za-z0-9]+)*\Z")
ROWS = {1: ("triple",), 2: ("quad",), 3: ("triple", "graph_start", "graph_end")}
ENTRIES = ("name", "prefix", "datatype")
VALUES = ("stream_name", "physical_type", "generalized_statements", "rdf_star", "max_name_table_size",
          "max_prefix_table_size", "max_datatype_table_size", "logical_type", "version")
# The logical types that go with each physical type, in a strict reading.
LOGICAL = {1: (0, 1, 3, 13), 2: (0, 2, 4, 14, 114), 3: (0, 2, 4, 14, 114)}


class Fault(Exception):
    """A row isn't right; the name of the fault."""


# Text of terms: ("iri", text), ("blank", label), ("literal", lex, tag, datatype), ("triple", s, p, o), ("default",).

def escaped(text, pattern, letters):
    return re.sub(pattern, lambda found: letters.get(found[0]) or "\\u%04X" % ord(found[0]), text)


def iri_text(text):
    return "<%s>" % escaped(text, r'[\0- <>"{}|^`\\]', {})


def string_text(text):
    letters = {"\t": "\\t", "\b": "\\b", "\n": "\\n", "\r": "\\r", "\f": "\\f", '"': '\\"', "\\": "\\\\"}
    return escaped(text, r'[\0-\x1f\x7f"\\]', letters)


def label_text(label):
    return re.sub(rb"[^A-WYZa-z0-9]", lambda found: b"X%02X" % found[0][0], label.encode()).decode() or "X"


def term_text(term):
    if term[0] == "iri":
        return iri_text(term[1])
    if term[0] == "blank":
        return "_:" + label_text(term[1])
    if term[0] == "triple":
        return "<< %s >>" % " ".join(map(term_text, term[1:]))
    _, lex, tag, datatype = term
    tail = "@" + tag if tag is not None else "" if datatype in (None, XSD_STRING) else "^^" + iri_text(datatype)
    return '"%s"%s' % (string_text(lex), tail)


def item_text(item):
    if item[0] == "namespace":
        return "# prefix %s %s\n" % (string_text(item[1]), iri_text(item[2]))
    return " ".join(term_text(term) for term in item[1:] if term != ("default",)) + " .\n"


class Reader:
    """What the rows so far have said."""

    def __init__(self, strict):
        self.strict = strict
        self.options = None
        self.tables = {table: {} for table in ENTRIES}
        self.last_entry = dict.fromkeys(ENTRIES, 0)
        self.last_prefix = self.last_name = 0
        self.last_terms = {}
        self.graph = None

    def row(self, row):
        """What the row states: ("statement", terms..), ("namespace", name, iri), or nothing."""
        kind = row.WhichOneof("row")
        if kind is None:
            raise Fault("EmptyRow")
        message = getattr(row, kind)
        if self.options is None:
            return self.first(kind, message)
        if kind == "options":
            if any(getattr(message, value) != getattr(self.options, value) for value in VALUES):
                raise Fault("OptionsDiffer")
            return None
        if kind in ENTRIES:
            return self.entry(kind, message)
        if kind == "namespace":
            if self.strict and self.options.version == 1:
                raise Fault("EarlyNamespace")
            if not message.HasField("value"):
                raise Fault("NoTerm")
            return ("namespace", message.name, self.iri(message.value))
        if kind not in ROWS[self.options.physical_type]:
            raise Fault("WrongRow")
        return self.graph_row(kind, message) if kind.startswith("graph") else self.statement(kind, message)

    def first(self, kind, message):
        if kind != "options":
            raise Fault("NoOptions")
        if message.physical_type not in ROWS or message.version not in (1, 2):
            raise Fault("BadOptions")
        if any(self.size(message, table) > 65536 for table in ENTRIES):
            raise Fault("TableTooLarge")
        if self.strict and self.size(message, "name") < 8:
            raise Fault("SmallNames")
        if self.strict and message.logical_type not in LOGICAL[message.physical_type]:
            raise Fault("BadLogical")
        self.options = message

    @staticmethod
    def size(options, table):
        return getattr(options, "max_%s_table_size" % table)

    def entry(self, table, message):
        number = message.id or self.last_entry[table] + 1
        if number > self.size(self.options, table):
            raise Fault("BadEntry")
        self.last_entry[table] = number
        self.tables[table][number] = message.value

    def graph_row(self, kind, message):
        if kind == "graph_end":
            if self.graph is None:
                raise Fault("NoGraph")
            self.graph = None
            return
        if self.graph is not None:
            raise Fault("GraphOpen")
        self.graph = self.term(message, "graph")
        if self.graph is None:
            raise Fault("NoTerm")

    def statement(self, kind, message):
        if kind == "triple" and self.options.physical_type == 3 and self.graph is None:
            raise Fault("NoGraph")
        for position in ("subject", "predicate", "object") + (("graph",) if kind == "quad" else ()):
            term = self.term(message, position)
            if term is not None:
                self.last_terms[position] = term
            elif position not in self.last_terms:
                raise Fault("NoTerm")
        terms = [self.last_terms[position] for position in ("subject", "predicate", "object")]
        return ("statement", *terms, self.last_terms["graph"] if kind == "quad" else self.graph or ("default",))

    def term(self, message, position):
        """The term that stands there, or None."""
        field = message.WhichOneof(position)
        if field is None:
            return None
        value, kind = getattr(message, field), field[2:]
        if self.strict:
            self.may_stand(kind, position)
        if kind == "iri":
            return ("iri", self.iri(value))
        if kind == "bnode":
            return ("blank", value)
        if kind == "default_graph":
            return ("default",)
        return self.literal(value) if kind == "literal" else self.triple_term(value)

    def may_stand(self, kind, position):
        if kind == "triple_term" and not self.options.rdf_star:
            raise Fault("NoStar")
        usual = kind == "iri" if position == "predicate" else kind != "literal" or position == "object"
        if not usual and not self.options.generalized_statements:
            raise Fault("NotPlain")

    def triple_term(self, message):
        terms = []
        for position in ("subject", "predicate", "object"):
            terms.append(self.term(message, position))
            if terms[-1] is None:
                raise Fault("NoTerm")
        return ("triple", *terms)

    def literal(self, literal):
        kind = literal.WhichOneof("literalKind")
        if kind == "langtag" and not TAG.match(literal.langtag):
            raise Fault("BadLangtag")
        tag = literal.langtag if kind == "langtag" else None
        return ("literal", literal.lex, tag, self.slot("datatype", literal.datatype) if kind == "datatype" else None)

    def iri(self, iri):
        prefix = self.last_prefix = iri.prefix_id or self.last_prefix
        before = self.slot("prefix", prefix) if prefix else ""
        self.last_name = iri.name_id or self.last_name + 1
        return before + self.slot("name", self.last_name)

    def slot(self, table, number):
        if number not in self.tables[table]:
            raise Fault("NoEntry")
        return self.tables[table][number]


def read(frames, strict=False):
    """The items of a file, each after its place, up to the first fault; and that fault's place and names, or None.

    A frame is a list of rows. In the place of a row, or of a frame, may stand a set of names: a fault that was met there
    while bytes were read, which is one of these.
    """
    reader, items = Reader(strict), []
    for frame_number, frame in enumerate(frames, 1):
        if isinstance(frame, frozenset):
            return items, ((frame_number, 0), frame)
        for row_number, row in enumerate(frame, 1):
            place = (frame_number, row_number)
            if isinstance(row, frozenset):
                return items, (place, row)
            try:
                item = reader.row(row)
            except Fault as fault:
                return items, (place, {fault.args[0]})
            if item is not None:
                items.append((place, item))
    return items, None


def text(items):
    return "".join(item_text(item) for _, item in items).encode()
