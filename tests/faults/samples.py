"""The samples of the tests of the formats: one document, five documents, and one document under a stop word."""
from writing import index_text, inverted, run_text

ONE = inverted([(b"d", [b"a", b"a"])])
FIVE_ROWS = [(b"a", [b"x", b"y"]), (b"b", [b"y"]), (b"c", []), (b"d", [b"y", b"x", b"y"]), (b"e", [b"x"])]
FIVE = inverted(FIVE_ROWS)
STOP = inverted([(b"d", [b"flights", b"to", b"london"])], [b"to"])
PARTS = [(0, inverted(FIVE_ROWS[:2])), (2, inverted(FIVE_ROWS[2:4])), (4, inverted(FIVE_ROWS[4:]))]

TEXTS = {"one": b"d\tA a\n", "five": b"a\tx y\nb\ty\nc\t\nd\ty x y\ne\tx\n", "stop": b"d\tflights to london\n"}
COLLECTIONS = {"one": ONE, "five": FIVE, "stop": STOP}
INDEXES = {(name, version): index_text(found, version) for name, found in COLLECTIONS.items() for version in (1, 2)}
RUNS = {"one": run_text(0, ONE), "five": run_text(*PARTS[0]), "stop": run_text(0, STOP)}
FIVE_RUNS = [run_text(*part) for part in PARTS]
# two sizes for each: version 1, version 2
assert [len(INDEXES[n, v]) for n in TEXTS for v in (1, 2)] == [81, 81, 118, 119, 173, 174]
assert [len(r) for r in RUNS.values()] == [29, 41, 49]
