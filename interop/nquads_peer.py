"""jellyp's N-Quads, read by rapper (of raptor) and by serdi (of serd): each must take all of it and find the statements
that the plain reader (reading.py) found in the Jelly file.

What these two take is narrower than N-Quads, so the files are made of what both take. With raptor 2.0.15 and serd 0.30.16:

- Both refuse triple terms, and literals and blank nodes in places where RDF 1.1 has none.
- Both refuse a relative IRI, which N-Quads does too.
- Both refuse the escapes of U+0000, of a space, of < and of > in an IRI. The grammar has them, but no IRI has these
  characters. Both take the escapes of the other control characters and of " { } | ^ `.
- rapper cuts an IRI or a literal off at U+0000, U+FFFE and U+FFFF. It writes a backslash of an IRI as two, which nobody
  can read back, so no IRI here has one.
- rapper takes an apostrophe in a comment for the beginning of a string, and loses the line behind the comment. So no name
  of a namespace has one here.
- rapper makes language tags small. A tag of some hundred letters makes it crash, so tags here are short.

Each is asked to write N-Quads again, and that is read by the few lines below. Both keep the labels of blank nodes, the
order of statements, and those that stand twice.
"""
import itertools
import random
import re
import subprocess

import making
import reading
from jelly_peer import parsed

PEERS = {
    "rapper": ["rapper", "-q", "-i", "nquads", "-o", "nquads", "FILE", "-"],
    "serdi": ["serdi", "-i", "nquads", "-o", "nquads", "FILE"],
}
TERM = re.compile(r'<(?P<iri>[^>]*)>|_:(?P<blank>[^ ]+)'
                  r'|"(?P<lex>(?:[^"\\]|\\.)*)"(?:@(?P<tag>[^ ]+)|\^\^<(?P<datatype>[^>]*)>)?')
# In an IRI, and in a literal.
UCHAR = re.compile(r"\\(?:u([0-9A-F]{4})|U([0-9A-F]{8}))")
ESCAPE = re.compile(UCHAR.pattern + r"|\\(.)")
LETTERS = {"t": "\t", "b": "\b", "n": "\n", "r": "\r", "f": "\f"}


def iri_of(text):
    return UCHAR.sub(lambda m: chr(int(m[1] or m[2], 16)), text)


def string_of(text):
    return ESCAPE.sub(lambda m: LETTERS.get(m[3], m[3]) if m[3] else chr(int(m[1] or m[2], 16)), text)


def terms_of(line):
    """The terms of a peer's line."""
    terms = []
    for found in TERM.finditer(line):
        if found["iri"] is not None:
            terms.append(("iri", iri_of(found["iri"])))
        elif found["blank"] is not None:
            terms.append(("blank", found["blank"]))
        else:
            datatype = found["datatype"] and iri_of(found["datatype"])
            terms.append(("literal", string_of(found["lex"]), found["tag"], datatype))
    return terms


def expected(peer, items):
    """The statements that the peer has to find."""
    for _, (kind, *terms) in items:
        if kind == "statement":
            yield [expected_term(peer, term) for term in terms if term != ("default",)]


def expected_term(peer, term):
    if term[0] == "blank":
        return ("blank", reading.label_text(term[1]))
    if term[0] == "literal":
        _, lex, tag, datatype = term
        tag = tag.lower() if tag and peer == "rapper" else tag
        return ("literal", lex, tag, None if datatype == reading.XSD_STRING else datatype)
    return term


def check(peer, text, items):
    """What is wrong with the peer's reading of this text; empty where nothing is."""
    with open(text[0], "wb") as file:
        file.write(text[1])
    command = [text[0] if word == "FILE" else word for word in PEERS[peer]]
    done = subprocess.run(command, stdin=subprocess.DEVNULL, capture_output=True, timeout=60)
    if done.returncode or done.stderr:
        return "status %d, %r" % (done.returncode, done.stderr[:300])
    # Line feeds alone end a line; Python's splitlines knows further ends.
    got = [terms_of(line) for line in done.stdout.decode().split("\n") if line]
    for number, (found, wanted) in enumerate(itertools.zip_longest(got, expected(peer, items)), 1):
        if found != wanted:
            return "statement %d: %.300r instead of %.300r" % (number, found, wanted)
    return ""


def run(program, peers, tally, seed, count, folder):
    print("N-Quads of %d Jelly files, from seed %s, read by %s" % (count, seed, " and ".join(peers)))
    for number in range(count):
        made = random.Random("%s, peers' file %d" % (seed, number))
        frames = making.make(made, 1 + number % 3, plain=True, rows=400)
        data = making.file_bytes(frames)
        items, _ = reading.read(parsed(frames))
        status, out, errors = program.run("nquads", data)
        for peer in peers:
            wrong = check(peer, (folder + "/text.nq", out), items) if status == 0 else "status %d, %r" % (status, errors)
            tally.check(wrong, "%s on the text of peers' file %d of seed %s" % (peer, number, seed), data)
