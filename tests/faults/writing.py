"""Writes index texts and run texts by docs/format alone, as a second program beside `ix`.

A collection is a stop set (ascending terms), rows (name, number of tokens) and terms ascending with their postings:
term -> [(document, [position, ..]), ..]. Terms and names are bytes.
"""
MOST = 1 << 28
GREATEST = (1 << 32) - 1
NAMES = ("POSTINGS", "STOP", "DOCS", "DICTIONARY", "GRAMS")


class Collection:
    def __init__(self, stop=(), rows=(), terms=None):
        self.stop, self.rows, self.terms = list(stop), list(rows), dict(terms or {})


# ---- numbers as bytes

def code(number):
    groups = [number & 127 | 128]
    while number := number >> 7:
        groups.append(number & 127)
    return bytes(reversed(groups))


def gaps(numbers):
    before = -1
    for number in numbers:
        yield code(number - before)
        before = number


def sized(text):
    return code(len(text)) + text


# ---- writing

def coded_list(postings):
    written, before = [], -1
    for document, positions in postings:
        written += [code(document - before), code(len(positions)), *gaps(positions)]
        before = document
    return b"".join(written)


def grams_of(terms):
    """The GRAMS section of ascending terms: the windows of three characters of each term between two dollars."""
    grams = {}
    for number, term in enumerate(terms):
        marked = "$" + term.decode() + "$"
        for window in {marked[i:i + 3] for i in range(len(marked) - 2)}:
            grams.setdefault(window.encode(), []).append(number)
    return b"".join(sized(g) + code(len(n)) + b"".join(gaps(n)) for g, n in sorted(grams.items()))


def shared_front(one, other):
    count = 0
    for a, b in zip(one, other):
        if a != b:
            break
        count += 1
    return count


def entry_front(version, number, term, before):
    if version == 1 or number % 4 == 0:
        return sized(term)
    shared = shared_front(term, before)
    return code(shared) + sized(term[shared:])


def index_text(collection, version=2):
    lists = [coded_list(p) for p in collection.terms.values()]
    terms, before = [], b""
    for number, (term, postings) in enumerate(collection.terms.items()):
        terms.append(entry_front(version, number, term, before) + code(len(postings)) + code(len(lists[number])))
        before = term
    sections = (b"".join(lists), b"".join(map(sized, collection.stop)),
                b"".join(sized(n) + code(c) for n, c in collection.rows), b"".join(terms), grams_of(collection.terms))
    lengths = b"".join(len(s).to_bytes(8, "little") for s in sections)
    counts = len(collection.rows).to_bytes(4, "little") + len(collection.terms).to_bytes(4, "little")
    return b"PIIX000%d" % version + b"".join(sections) + lengths + counts + b"PIIXEND%d" % version


def run_text(first, collection):
    """The run text of a collection whose documents count from 0 here, and from `first` on in the whole."""
    parts = [b"PIIXRUN1", first.to_bytes(4, "little"), len(collection.rows).to_bytes(4, "little"), code(len(collection.stop))]
    parts += map(sized, collection.stop)
    parts += (sized(n) + code(c) for n, c in collection.rows)
    for term, postings in collection.terms.items():
        coded = coded_list(postings)
        parts += [sized(term), code(len(postings)), code(len(coded)), coded]
    return b"".join(parts) + b"\x80"


# ---- merging and asking

def merged(collections):
    """The concatenation of collections of one stop set."""
    whole, first = Collection(collections[0].stop if collections else ()), 0
    for part in collections:
        for term, postings in part.terms.items():
            whole.terms.setdefault(term, []).extend((first + d, p) for d, p in postings)
        first += len(part.rows)
        whole.rows += part.rows
    whole.terms = dict(sorted(whole.terms.items()))
    return whole


def inverted(documents, stop=()):
    """The collection of documents (name, words), each word a term or a stop term: for samples of plain words."""
    found = Collection(sorted(stop), [(n, len(w)) for n, w in documents])
    for number, (_, words) in enumerate(documents):
        for position, word in enumerate(words):
            if word not in stop:
                postings = found.terms.setdefault(word, [])
                if not postings or postings[-1][0] != number:
                    postings.append((number, []))
                postings[-1][1].append(position)
    found.terms = dict(sorted(found.terms.items()))
    return found
