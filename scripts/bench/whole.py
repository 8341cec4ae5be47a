"""Lines by which much is made at once, for slow-lines: loads and transactions."""

LINES = {}
MOST = 65_536


def line(make):
    """As an attack of slow-lines: for a size up to 1, the lines before, the line itself, and how many cells it touches or looks at."""
    LINES[make.__name__.replace("_", " ")] = make
    return make


def beginning(n, arrays=1):
    """A domain of so many indices, and arrays over it."""
    return [{"op": "domain", "d": "D", "is": "{1..%d}" % n}, *({"op": "array", "a": "A%d" % at, "d": "D"} for at in range(arrays))]


# --- loads

def book_of(size, last):
    """The text of a workbook with an array of as many elements as a line may have."""
    n = int(21_000 * size)
    return "chapel-workbook 1\narray A over D [%s]\nrect D {1..%d} none\n%s" % (", ".join(["7"] * n), n, last), 2 * n


@line
def a_load(size):
    text, cells = book_of(size, "end\n")
    return [], {"op": "load", "text": text}, cells


@line
def a_load_that_is_no_text_at_its_end(size):
    text, cells = book_of(size, "end")
    return [], {"op": "load", "text": text}, cells


@line
def a_load_of_many_objects(size):
    n = int(2_400 * size)
    names = sorted("A%d" % at for at in range(n))
    text = "chapel-workbook 1\n%srect D {1..1} none\nend\n" % "".join("array %s over D [1]\n" % name for name in names)
    return [], {"op": "load", "text": text}, 4 * n


@line
def a_load_into_a_workbook_of_many_objects(size):
    text, _ = book_of(0.01, "end\n")
    n = int(8_000 * size)
    return beginning(1, n), {"op": "load", "text": text}, n


# --- transactions

def together(edits):
    return {"op": "transaction", "edits": edits}


def sets(count, elements):
    """So many sets, one element after another, in as many bytes as the shortest."""
    return [{"op": "set", "a": "A0", "i": at % elements + 1, "v": 7} for at in range(count)]


@line
def a_transaction_of_sets(size):
    n = int(1_700 * size)
    return beginning(n), together(sets(n, n)), n


@line
def a_transaction_of_sets_of_one_element(size):
    n = int(1_700 * size)
    return beginning(n), together(sets(n, 1)), n


@line
def a_transaction_of_numbers_of_a_rectangle(size):
    n = int(32_000 * size)
    return beginning(n), together([{"op": "put", "a": "A0", "on": "{1..%d}" % n, "vs": [7] * n}]), n


@line
def a_transaction_that_fills_and_then_sets(size):
    n = int(1_700 * size)
    return beginning(MOST), together([{"op": "fill_all", "a": "A0", "v": 1}, *sets(n, n)]), MOST + n


@line
def a_transaction_of_copies_one_of_another(size):
    n = int(1_000 * size)
    return beginning(n + 1), together([{"op": "copy", "a": "A0", "i": at + 1, "b": "A0", "j": at, "c": 1} for at in range(1, n + 1)]), n


@line
def a_transaction_of_new_arrays(size):
    n = int(1_500 * size)
    return beginning(1, 0), together([{"op": "array", "a": "A%d" % at, "d": "D"} for at in range(n)]), 4 * n


@line
def a_transaction_that_fills_and_then_changes_a_domain(size):
    """Each index that comes looks at which arrays are over the domain, among all that is changed by then."""
    n = int(1_000 * size)
    before = [*beginning(MOST), {"op": "assoc", "d": "N", "of": "int"}, {"op": "array", "a": "B", "d": "N"}]
    return before, together([{"op": "fill_all", "a": "A0", "v": 1}, *({"op": "add", "d": "N", "i": at} for at in range(n))]), MOST + 2 * n


@line
def a_transaction_that_is_refused_at_its_end(size):
    n = int(1_700 * size)
    return beginning(MOST), together([{"op": "fill_all", "a": "A0", "v": 1}, *sets(n, n), {"op": "set", "a": "A0", "i": 0, "v": 1}]), MOST + n


@line
def a_transaction_of_which_the_last_edit_is_not_read(size):
    n = int(1_700 * size)
    return beginning(n), together([*sets(n, n), {"op": "set", "a": "A0", "i": 1, "v": 0.5}]), n
