#!/usr/bin/env python3
"""Cases for the three questions, in the form that reference.py reads.

    check_cases.py extra
        prints the hand-made cases of the checks: the ceilings, and breaches of
        every number.

    check_cases.py runs
        prints the hand-made runs: the bench examples (three with their check
        too), what is refused and in which order, the limits, where it is easy
        to go wrong, and lines that are no runs. They are the last part of
        crates/answer/stdin.

    check_cases.py damaged COUNT SEED <CASES
        prints COUNT images, each one of CASES with a few words damaged. The
        same CASES, COUNT and SEED give the same images.
"""
import random
import sys

from reference import Image, layout, read_case, BadLine
from reference import NEW, CAST, VALUE, VAR, ADD, EQ, ASSIGN, GET, SET, CALL, BLOCK, SEQ, IF, WHILE, THROW, TRY

TOP = 2 ** 32 - 1  # the largest word



class Draft:
    """An image as its tables. A test changes them, and words() lays them out with a trailer that fits."""

    def __init__(self):
        self.classes = [0, 0, 0, 0]
        self.fields = []
        self.methods = []
        self.types = []
        self.nodes = []
        self.main = None  # None: the last node
        self.inputs = 0
        self.format = 1

    def words(self):
        tables = [[[c] for c in self.classes], self.fields, self.methods, [[t] for t in self.types], self.nodes]
        flat = [[w for record in table for w in record] for table in tables]
        trailer = []
        rest = sum(len(section) for section in flat) + 8
        for section in flat:
            trailer.append(rest)
            rest -= len(section)
        main = max(len(self.nodes) - 1, 0) if self.main is None else self.main
        return sum(flat, []) + trailer + [main, self.inputs, self.format]

    def body(self, nodes):
        """Puts a tree at the end of the node table: the number of its last node."""
        self.nodes += nodes
        return len(self.nodes) - 1


def tree(kind, x, y, *operands):
    """A tree as the list of its nodes, operands first."""
    nodes = [list(node) for operand in operands for node in operand]
    return nodes + [[kind, len(nodes) + 1, x, y]]


def number(n):
    return tree(VALUE, 3, n)


def smallest():
    """Four classes, and main is Integer 5."""
    d = Draft()
    d.body(number(5))
    return d


def survey():
    """An image with something in every table: six classes, five fields, four methods, six type words, two main inputs."""
    d = Draft()
    d.classes = [0, 0, 0, 0, 0, 4]
    d.fields = [[4, 7, 2], [4, 8, 1], [4, 65535, 8], [5, 7, 0], [5, 9, 9]]
    d.types = [2, 1, 8, 9, 2, 4]
    this, first = tree(VAR, 0, 0), tree(VAR, 1, 0)
    d.methods = [
        [4, 9, 2, 0, 0, d.body(tree(GET, 7, 4, this))],
        [4, 10, 2, 0, 2, d.body(tree(ADD, 0, 0, first, tree(GET, 7, 4, this)))],
        [5, 9, 2, 6, 0, d.body(tree(SEQ, 0, 0, tree(SET, 7, 4, this, number(3)), number(4)))],
        [5, 12, 8, 2, 1, d.body(tree(TRY, 4, 2, first, tree(VAR, 2, 0)))],
    ]
    d.inputs = 2
    d.body(tree(BLOCK, 3, 2, tree(SEQ, 0, 0, tree(ASSIGN, 3, 0, tree(CALL, 10, 2, tree(NEW, 4, 0), number(1), number(2))), tree(VAR, 3, 0))))
    return d


def around(main):
    """An image of six classes with a tree for its main, after two methods with small bodies."""
    d = Draft()
    d.classes = [0, 0, 0, 0, 0, 4]
    d.methods = [[4, 1, 2, 0, 0, d.body(number(1))], [4, 2, 2, 0, 0, d.body(number(2))]]
    d.body(main)
    return d


# ---- the ceilings

def ceilings_of_sections():
    for n in (256, 257):
        d = smallest()
        d.classes += list(range(3, n - 1))
        yield "ceiling_classes_%d" % n, d.words()
    for n in (1024, 1025):
        d = smallest()
        d.classes += [0]
        d.fields = [[4, name, 2] for name in range(n)]
        yield "ceiling_fields_%d" % n, d.words()
    for n in (1024, 1025):
        d = Draft()
        d.classes += [0]
        d.methods = [[4, name, 2, 0, 0, d.body(number(name))] for name in range(n)]
        d.body(number(5))
        yield "ceiling_methods_%d" % n, d.words()
    for n in (2048, 2049):
        d = smallest()
        d.types = [2] * n
        yield "ceiling_type_words_%d" % n, d.words()
    for n in (4096, 4097):
        d = Draft()
        d.nodes = long_tree(n)
        yield "ceiling_nodes_%d" % n, d.words()
    yield "ceiling_all_tables", full(0).words()
    yield "ceiling_all_tables_and_one_more_each", full(1).words()


def long_tree(n):
    """One tree of n nodes: n odd by Eq of a longer and longer left operand, n even under one Throw more."""
    nodes = [[VALUE, 1, 0, 0]]
    while len(nodes) + 2 <= n:
        nodes += [[VALUE, 1, 0, 0], [EQ, len(nodes) + 2, 0, 0]]
    if len(nodes) < n:
        nodes += [[THROW, len(nodes) + 1, 0, 0]]
    return nodes


def full(more):
    """Every table at its ceiling, or each with so many records more."""
    d = Draft()
    d.classes += [c // 2 for c in range(4, 256 + more)]
    d.fields = [[4 + i // 8, i % 8, 2] for i in range(1024 + more)]
    d.types = [i % 3 for i in range(2048 + more)]
    d.methods = [[4 + i // 8, i % 8, 2, i, 8, d.body(number(i))] for i in range(1024 + more)]
    d.inputs = 8 + more
    d.body(long_tree(4096 + more - len(d.nodes)))
    return d


def ceilings_of_counts():
    for n in (8, 9):
        d = smallest()
        d.classes += [0]
        d.types = [2] * 12
        d.methods = [[4, 1, 2, 0, n, 0]]
        d.nodes = number(1) + number(5)
        yield "ceiling_method_arguments_%d" % n, d.words()
        d = around(tree(CALL, 1, n, tree(NEW, 4, 0), *[number(i) for i in range(n)]))
        yield "ceiling_call_arguments_%d" % n, d.words()
        d = smallest()
        d.types = [2] * 12
        d.inputs = n
        yield "ceiling_main_inputs_%d" % n, d.words()
    d = around(tree(CALL, 1, TOP, tree(NEW, 4, 0)))
    yield "ceiling_call_arguments_largest_word", d.words()


def ceilings_of_names():
    for n in (65535, 65536):
        d = smallest()
        d.classes += [0]
        d.fields = [[4, n, 2]]
        yield "ceiling_field_name_%d" % n, d.words()
        d = smallest()
        d.classes += [0]
        d.methods = [[4, n, 2, 0, 0, d.body(number(1)) - 1]]
        yield "ceiling_method_name_%d" % n, d.words()
        d = around(tree(GET, n, 4, tree(NEW, 4, 0)))
        yield "ceiling_get_name_%d" % n, d.words()
        d = around(tree(SET, n, 4, tree(NEW, 4, 0), number(1)))
        yield "ceiling_set_name_%d" % n, d.words()
        d = around(tree(CALL, n, 0, tree(NEW, 4, 0)))
        yield "ceiling_call_name_%d" % n, d.words()


def ceilings_of_variables():
    for v in (0, 1, 63, 64, TOP):
        yield "ceiling_var_%d" % v, around(tree(VAR, v, 0)).words()
        yield "ceiling_assign_%d" % v, around(tree(ASSIGN, v, 0, number(1))).words()
        yield "ceiling_block_variable_%d" % v, around(tree(BLOCK, v, 2, number(1))).words()
        yield "ceiling_try_variable_%d" % v, around(tree(TRY, 4, v, number(1), number(2))).words()


# ---- breaches, number by number

def with_word(words, at, value):
    words = list(words)
    words[at] = value
    return words


def breaches_1():
    yield "no_words", []
    for n in (1, 4, 7):
        yield "only_%d_words" % n, [1] * n
    for n in (0, 2, 256, TOP):
        yield "format_%d" % n, with_word(smallest().words(), -1, n)
    yield "trailer_alone", [8, 8, 8, 8, 8, 0, 0, 1]
    yield "eight_zeros_and_format", [0, 0, 0, 0, 0, 0, 0, 1]
    yield "format_0_and_trailer_wrong", with_word(with_word(smallest().words(), -1, 0), -8, 5)


def breaches_2():
    words = survey().words()
    for i in range(5):
        here = words[i - 8]
        for value in sorted({0, 7, 8, here - 1, here + 1, here + 3, len(words), len(words) + 1, TOP}):
            yield "trailer_word_%d_is_%d" % (i, value), with_word(words, i - 8, value)
    for value in (6, 7, 8, 9, TOP):
        yield "trailer_word_6_is_%d" % value, with_word(words, -2, value)
    yield "trailer_words_2_and_4_wrong", with_word(with_word(words, -6, TOP), -4, 7)
    yield "trailer_words_4_and_6_wrong", with_word(with_word(words, -4, 9), -2, TOP)
    yield "one_input_no_type_words", with_word(smallest().words(), -2, 1)
    for name, table in (("field", "fields"), ("method", "methods"), ("node", "nodes")):
        d = survey()
        setattr(d, table, getattr(d, table)[:-1] + [getattr(d, table)[-1][:-1]])
        yield "last_%s_record_cut" % name, d.words()
    yield "one_word_in_front", [0] + words
    yield "first_word_missing", words[1:]


def breaches_3():
    d = smallest()
    d.classes += [0]
    d.fields = [[4, name, 2] for name in range(1025)]
    d.types = [2] * 2049
    yield "fields_and_type_words_over", d.words()
    d = smallest()
    d.types = [3] * 9
    d.inputs = 9
    yield "nine_inputs_and_broken_type_words", d.words()


def breaches_4():
    for n in range(4):
        d = smallest()
        d.classes = [0] * n
        yield "only_%d_classes" % n, d.words()
    d = smallest()
    d.classes = [0, 1, 0]
    yield "only_3_classes_and_class_1_broken", d.words()
    for c in range(4):
        d = survey()
        d.classes[c] = 1
        yield "class_%d_holds_1" % c, d.words()
    for c, above in ((4, 4), (4, 5), (5, 5), (5, 6), (5, TOP)):
        d = survey()
        d.classes[c] = above
        yield "class_%d_extends_%d" % (c, above), d.words()
    d = survey()
    d.classes[4] = d.classes[5] = 9
    yield "classes_4_and_5_broken", d.words()
    d = smallest()
    d.classes += list(range(3, 254)) + [255]
    yield "class_255_extends_itself", d.words()


def members(table, at, name):
    """Breaches that fields and methods share, at one record of a table."""
    for column, values in ((0, (0, 3, 6, TOP)), (1, (65536, TOP)), (2, (3, 10, TOP))):
        for value in values:
            d = survey()
            getattr(d, table)[at][column] = value
            yield "%s_%d_word_%d_is_%d" % (name, at, column, value), d.words()


def orders(table, name):
    """Records out of order: the same key twice, a name that falls, a class that falls."""
    for label, key in (("same", [4, 8]), ("name_falls", [4, 0]), ("class_falls", [3, 9]), ("rises", [4, 9])):
        d = survey()
        records = getattr(d, table)
        records[0][0:2] = [4, 8]
        records[1][0:2] = key
        yield "%s_1_%s" % (name, label), d.words()


def breaches_5():
    for at in (0, 2, 4):
        yield from members("fields", at, "field")
    yield from orders("fields", "field")
    d = survey()
    d.fields[1][2] = 3
    d.fields[3][1] = TOP
    yield "fields_1_and_3_broken", d.words()
    d = survey()
    d.fields[4][2] = 4 + len(d.classes) - 1
    yield "field_declares_last_class", d.words()


def breaches_6():
    for at in (0, 1, 3):
        yield from members("methods", at, "method")
    yield from orders("methods", "method")
    for at, first, count in ((0, 7, 0), (0, TOP, 0), (0, TOP, 1), (1, 5, 2), (1, 4, 2), (2, 6, 0), (3, TOP - 7, 8), (3, 6, 1), (3, 0, 9), (3, 0, TOP), (3, 1, TOP)):
        d = survey()
        d.methods[at][3:5] = [first, count]
        yield "method_%d_takes_%d_from_%d" % (at, count, first), d.words()
    d = survey()
    d.methods[0][2] = 3
    d.methods[2][4] = 9
    yield "methods_0_and_2_broken", d.words()


def breaches_7():
    for at in (0, 3, 5):
        for value in (3, 10, TOP):
            d = survey()
            d.types[at] = value
            yield "type_word_%d_is_%d" % (at, value), d.words()
    d = survey()
    d.types[2] = d.types[5] = 3
    yield "type_words_2_and_5_broken", d.words()


def shapes():
    """One right tree of each kind."""
    one, two, new = number(1), number(2), tree(NEW, 4, 0)
    return [
        tree(NEW, 5, 0), tree(CAST, 5, 0, new), tree(VALUE, 2, 1), tree(VAR, 63, 0), tree(ADD, 0, 0, one, two),
        tree(EQ, 0, 0, new, two), tree(ASSIGN, 1, 0, one), tree(GET, 7, 5, new), tree(SET, 7, 4, new, one),
        tree(CALL, 9, 2, new, one, two), tree(BLOCK, 1, 9, one), tree(SEQ, 0, 0, one, two), tree(IF, 0, 0, new, one, two),
        tree(WHILE, 0, 0, one, two), tree(THROW, 3, 0, new), tree(TRY, 5, 1, one, two),
    ]


WORDS_TO_TRY = (0, 1, 2, 3, 4, 5, 6, 9, 10, 64, 65536, TOP)


def breaches_8():
    for kind in range(16):
        for column, label in ((2, "x"), (3, "y")):
            for value in WORDS_TO_TRY:
                d = around(shapes()[kind])
                d.nodes[-1][column] = value
                yield "kind_%d_%s_is_%d" % (kind, label, value), d.words()
    for kind in range(16):
        size = len(shapes()[kind])
        for value in sorted({0, size - 1, size + 1, TOP}):
            d = around(shapes()[kind])
            d.nodes[-1][1] = value
            yield "kind_%d_size_is_%d" % (kind, value), d.words()
    yield from values()
    yield from node_places()


def values():
    for tag, payload in ((0, 0), (0, 1), (1, 0), (1, 1), (2, 0), (2, 1), (2, 2), (3, 0), (3, TOP), (4, 0), (4, 3), (5, 0)):
        yield "value_tag_%d_payload_%d" % (tag, payload), around(tree(VALUE, tag, payload)).words()


def node_places():
    last = len(survey().nodes) - 1
    for at in (0, 1, last // 2, last):
        for column, value in ((0, 16), (0, TOP), (1, 0), (2, TOP), (3, TOP)):
            d = survey()
            d.nodes[at][column] = value
            yield "node_%d_word_%d_is_%d" % (at, column, value), d.words()
    d = survey()
    d.nodes[3][0] = d.nodes[8][0] = 99
    yield "nodes_3_and_8_broken", d.words()
    d = smallest()
    d.nodes = [[THROW, 2, 0, 0]]
    yield "operand_before_node_0", d.words()
    d.nodes = [[VALUE, 1, 3, 5], [ADD, 3, 0, 0]]
    yield "second_operand_before_node_0", d.words()
    d.nodes = [[VALUE, 1, 3, 5], [ADD, 2, 0, 0]]
    yield "second_operand_missing", d.words()
    d.nodes = [[VALUE, 1, 3, 5], [CALL, 2, 1, 8]]
    yield "call_operands_before_node_0", d.words()


def breaches_9():
    for at in range(4):
        right = survey().methods[at][5]
        for body in sorted({right - 1, right + 1, 0, len(survey().nodes) - 1, len(survey().nodes), TOP}):
            d = survey()
            d.methods[at][5] = body
            yield "method_%d_body_%d" % (at, body), d.words()
    d = survey()
    last = len(d.nodes) - 1
    for main in (0, last - 1, last + 1, d.methods[3][5], TOP):
        d.main = main
        yield "main_node_%d" % main, d.words()
    yield from tables_of_bodies()


def tables_of_bodies():
    """Bodies that miss, share or overlap, and nodes that no body has."""
    d = survey()
    d.main = len(d.nodes) - 1
    d.nodes += number(9)
    yield "nodes_left_after_main", d.words()
    d = smallest()
    d.nodes += number(9)
    yield "node_left_before_main", d.words()
    d = smallest()
    d.nodes = []
    yield "no_nodes", d.words()
    d = survey()
    d.nodes = []
    yield "no_nodes_and_methods", d.words()
    d = survey()
    d.methods[0][5], d.methods[1][5] = d.methods[1][5], d.methods[0][5]
    yield "bodies_swapped", d.words()
    d = survey()
    d.methods[1][5] = d.methods[0][5]
    yield "two_methods_share_a_body", d.words()
    d = around(number(1))
    d.nodes[-1] = [ADD, 3, 0, 0]
    yield "main_reaches_into_the_bodies", d.words()
    d = around(number(1))
    d.nodes[1] = [THROW, 2, 0, 0]
    yield "body_reaches_into_the_one_before", d.words()


# ---- two numbers at once

def break_tables(d, n, at):
    """Breaks number n, 3 to 9, in the draft's tables: at is -1 for the last record, 0 for the first."""
    if n == 3:
        d.types = d.types + [2] * 2048
    if n == 4:
        d.classes[at] = 9
    if n == 5:
        d.fields[at][2] = 3
    if n == 6:
        d.methods[at][4] = 9
    if n == 7:
        d.types[at] = 3
    if n == 8:
        d.nodes[at][3] = 3
    if n == 9:
        d.methods[at][5] = TOP


def break_words(words, n):
    """Breaks number 1 or 2 in the words."""
    if n == 1:
        words[-1] = 3
    if n == 2:
        words[-2] = TOP


def pairs():
    """The lower number at the last record, the higher one at the first: the number decides before the place."""
    for low in range(1, 10):
        for high in range(low + 1, 10):
            d = survey()
            break_tables(d, low, -1)
            break_tables(d, high, 0)
            words = d.words()
            break_words(words, low)
            break_words(words, high)
            yield "broken_%d_and_%d" % (low, high), words


# ---- lines that are no cases, and lines that only look odd

SMALLEST = b"0 0 0 0 2 1 3 5 16 12 12 12 12 0 0 1"
SYSTEM = b"2" + b" 0" * 15 + b" 3" + b" 0" * 15 + b" 4" + b" 0" * 15

ODD_LINES = [
    b"check tabs_and_spaces\t|\t  0 0 0 0  2 1 3 5\t16 12 12 12 12 0 0 1  ",
    b"check carriage_return | 0 0 0 0 2 1 3 5 16 12 12 12 12 0 0 1\r",
    b"  check no_blanks_at_the_bar|0 0 0 0 2 1 3 5 16 12 12 12 12 0 0 1",
    b"check leading_zeros | 00 000 0 0 02 1 3 0000000000000005 16 12 12 12 12 0 0 01",
    b"",
    b" \t\r",
    b"check no_words_at_all |",
    b"check no_words_but_blanks |   \r",
    b"check " + b"n" * 64 + b" | 1",
    b"check " + b"n" * 65 + b" | 1",
    b"check largest_word | 4294967295",
    b"check word_too_large | 0 4294967296",
    b"check far_too_large | 18446744073709551616",
    b"check minus | 1 2 -3",
    b"check letters | 1 2x 3",
    b"check second_bar | 1 2 | 3",
    b"check two names | 1",
    b"check no_bar 1 2 3",
    b"check no_bar_at_all",
    b"check | 1 2 3",
    b"check",
    b"checks a | 1",
    b"chec a | 1",
    b"Check a | 1",
    b"run a | 1",
    b"conform no_blanks_at_the_bar|" + SMALLEST + b" |" + SYSTEM + b" |",
    b"conform tabs\t|\t" + SMALLEST + b"\t|\t" + SYSTEM + b"\t|\t\r",
    b"conform empty_parts | | |",
    b"conform empty_parts_without_blanks |||",
    b"conform empty_heap | " + SMALLEST + b" | | ",
    b"conform largest_heap_word | " + SMALLEST + b" | " + SYSTEM[:-1] + b"18446744073709551615 |",
    b"conform image_word_too_large | 1 4294967296 | 1 | 2",
    b"conform heap_word_too_large | 1 | 1 18446744073709551616 | 2",
    b"conform heap_word_far_too_large | 1 | 1 99999999999999999999 | 2",
    b"conform heap_letters | 1 | 2 3x | 4",
    b"conform input_letters | 1 | 2 3 | 4 x",
    b"conform third_bar | 1 | 2 | 3 | 4",
    b"conform no_inputs | 1 | 2",
    b"conform no_heap | 1",
    b"conform no_bar 1",
    b"conform | 1 | 2 | 3",
    b"conform",
    b"confor a | 1 | 2 | 3",
    b"conforms a | 1 | 2 | 3",
    b"coeck a | 1",
    b"chnform a | 1 | 2 | 3",
    b"| 1 2",
    b"check the_next_line_is_read_as_ever | 0 0 0 0 2 1 3 5 16 12 12 12 12 0 0 1",
]


def print_case(name, words):
    sys.stdout.buffer.write(b"check %s | %s\n" % (name.encode(), b" ".join(b"%d" % w for w in words)))


def print_heap(name, heap):
    """A heap of the smallest image, which takes no inputs."""
    sys.stdout.buffer.write(b"conform %s | %s | %s |\n" % (name.encode(), SMALLEST, b" ".join(b"%d" % w for w in heap)))


def heap_lengths():
    """The system's objects in heaps of every length that is near a limit."""
    for slots in (0, 1, 2, 3, 4, 4095, 4096, 4097):
        heap = [w for a in range(slots) for w in [a + 2 if a < 3 else 0] + [0] * 15]
        print_heap("slots_%d" % slots, heap)
        print_heap("slots_%d_and_a_word" % slots, heap + [0])


# The image cases, in the order in which they are printed.
PARTS = (
    ceilings_of_sections, ceilings_of_counts, ceilings_of_names, ceilings_of_variables, breaches_1, breaches_2, breaches_3,
    breaches_4, breaches_5, breaches_6, breaches_7, breaches_8, breaches_9, pairs,
)


def extra():
    print_case("smallest", smallest().words())
    print_case("survey", survey().words())
    seen = set()
    for part in PARTS:
        for name, words in part():
            assert name not in seen, name
            seen.add(name)
            print_case(name, words)
    heap_lengths()
    for line in ODD_LINES:
        sys.stdout.buffer.write(line + b"\n")


# ---- runs

LARGEST = 2 ** 64 - 1
UNIT, NULL, FALSE, TRUE, ZERO, ADDRESS_0 = 0, 1 << 32, 2 << 32, (2 << 32) + 1, 3 << 32, 4 << 32


def heap_of(slots, *objects):
    """The three system objects, then these, then free slots."""
    filled = [[2], [3], [4]] + [list(o) for o in objects]
    return [w for o in filled + [[0]] * (slots - len(filled)) for w in o + [0] * (16 - len(o))]


class Run:
    """A run, with what the bench examples have unless it is said otherwise."""

    def __init__(self, name, words, heap=None, inputs=(), room=None, steps=100, depth=8):
        self.name = name
        self.words = words
        self.heap = heap_of(4) if heap is None else heap
        self.inputs = inputs
        self.room = 16 * depth + 160 if room is None else room
        self.steps = steps
        self.depth = depth


def print_run(run):
    parts = [b" ".join(b"%d" % w for w in words) for words in (run.words, run.heap, run.inputs, [run.room], [run.steps], [run.depth])]
    sys.stdout.buffer.write(b"run %s | %s\n" % (run.name.encode(), b" | ".join(parts)))


def bench(main, types=()):
    """The bench examples' image: class 4 with field 7 and method 9, which gives `this.7`; main's inputs have these types."""
    d = Draft()
    d.classes += [0]
    d.fields = [[4, 7, 2]]
    d.methods = [[4, 9, 2, 0, 0, d.body(tree(GET, 7, 4, tree(VAR, 0, 0)))]]
    d.types = list(types)
    d.inputs = len(d.types)
    d.body(main)
    return d.words()


def val(tag, payload=0):
    return tree(VALUE, tag, payload)


def var(x):
    return tree(VAR, x, 0)


def new(c):
    return tree(NEW, c, 0)


def add(a, b):
    return tree(ADD, 0, 0, a, b)


def assign(x, e):
    return tree(ASSIGN, x, 0, e)


def seq(*parts):
    whole = parts[-1]
    for part in reversed(parts[:-1]):
        whole = tree(SEQ, 0, 0, part, whole)
    return whole


def block(x, t, e):
    return tree(BLOCK, x, t, e)


def choose(test, a, b):
    return tree(IF, 0, 0, test, a, b)


def loop(test, body):
    return tree(WHILE, 0, 0, test, body)


def throw(e, t=0):
    return tree(THROW, t, 0, e)


def catch(c, x, e, handler):
    return tree(TRY, c, x, e, handler)


def call(name, receiver, *arguments):
    return tree(CALL, name, len(arguments), receiver, *arguments)


def nested_sums(depth):
    """1 + 1 + .. + 1 to the left: the first sum lies so deep."""
    whole = number(1)
    for _ in range(depth + 1):
        whole = add(whole, number(1))
    return whole


NONE, YES, NO = val(0), val(2, 1), val(2, 0)
FOREVER = loop(YES, NONE)


def bench_runs():
    double = add(var(1), var(1))
    caught = catch(4, 1, throw(new(4), 8), var(1))
    sums = nested_sums(2)
    yield Run("bench_five_limit_0", bench(number(5)), steps=0)
    yield Run("bench_add_wraps", bench(add(number(2147483647), number(1))))
    yield Run("bench_block_written_so", bench(block(1, 2, seq(assign(1, number(2)), double))))
    late = bench(block(1, 2, seq(assign(1, add(number(1), number(1))), double)))
    yield Run("bench_block_brought_about", late)
    yield Run("bench_block_brought_about_limit_4", late, steps=4)
    yield Run("bench_input_assigned", bench(seq(assign(1, number(2)), var(1)), [2]), inputs=[ZERO + 7])
    yield Run("bench_while_false", bench(loop(NO, NONE)))
    yield Run("bench_catch", bench(caught))
    yield Run("bench_catch_no_free_slot", bench(caught), heap=heap_of(3))
    yield Run("bench_field_of_null", bench(block(1, 8, seq(assign(1, val(1)), tree(GET, 7, 4, var(1))))))
    yield Run("bench_call", bench(call(9, new(4))))
    yield Run("bench_unset", bench(block(1, 2, var(1))))
    yield Run("bench_arms_differ", bench(choose(YES, val(1), new(4))))
    yield Run("bench_throw_null", bench(throw(val(1))))
    yield Run("bench_sums_depth_1", bench(sums), depth=1)
    yield Run("bench_sums_depth_2", bench(sums), depth=2)


# The numbers a run may be refused with, in their order.
REFUSALS = [1, 2, 3, 4, 5, 6, 7, 8, 9, 10, 14, 15, 16, 19, 20]


def broken_run(name, numbers):
    """A run of the survey image with these numbers broken, all of them at once."""
    d = survey()
    if 10 in numbers:
        d.fields = [[4, n, 2] for n in range(16)]
    for n in numbers:
        break_tables(d, n, -1)
    words = d.words()
    for n in numbers:
        break_words(words, n)
    run = Run(name, words, inputs=[ZERO + 7, NULL])
    if 15 in numbers:
        run.heap[63] = 5
    if 14 in numbers:
        run.heap = run.heap + [0]
    if 16 in numbers:
        run.inputs = [ZERO + 7]
    if 19 in numbers:
        run.depth = 1025
    if 20 in numbers:
        run.room = 0
    return run


def refused_runs():
    yield broken_run("refused_nothing", [])
    for i, n in enumerate(REFUSALS):
        yield broken_run("refused_%d_alone" % n, [n])
        if i + 1 < len(REFUSALS):
            yield broken_run("refused_%d_and_all_later" % n, REFUSALS[i:])


def breached_runs():
    """Breaches of 11, 12, 13, 17 and 18, which a run does not ask, and places of 15 and 16."""
    d = survey()
    d.methods[2][2] = 0
    yield Run("asked_not_11", d.words(), inputs=[ZERO, NULL])
    yield Run("asked_not_12", bench(seq(add(YES, YES), number(1))))
    yield Run("asked_not_13", bench(seq(block(1, 2, number(3)), var(1))))
    yield Run("asked_not_17_system", bench(new(4)), heap=heap_of(4)[16:] + [0] * 16)
    yield Run("asked_not_17_field", bench(tree(GET, 7, 4, var(1)), [8]), heap=heap_of(4, [5, TRUE]), inputs=[ADDRESS_0 + 3])
    yield Run("asked_not_18", bench(var(1), [2]), inputs=[ADDRESS_0 + 4095])
    one = bench(var(1), [2])
    for word in (1, (2 << 32) + 2, ADDRESS_0 + 4096, 5 << 32, LARGEST):
        yield Run("refused_16_word_%d" % word, one, inputs=[word])
    yield Run("refused_16_none_given", one)
    yield Run("refused_16_two_given", one, inputs=[ZERO, ZERO])
    yield Run("refused_16_the_lower_place", one, inputs=[1, ZERO])
    for slots in (0, 2, 3):
        yield Run("slots_%d_of_a_run" % slots, bench(number(5)), heap=heap_of(4)[:16 * slots])
    for at, word in ((0, 6), (1, 1), (48, 5 << 32), (62, LARGEST)):
        heap = heap_of(4)
        heap[at] = word
        yield Run("refused_15_at_%d" % at, bench(number(5)), heap=heap)
    yield Run("refused_15_no_value_in_a_field", bench(number(5)), heap=heap_of(4, [5, 5 << 32]))


def limit_runs():
    late = bench(block(1, 2, seq(assign(1, add(number(1), number(1))), add(var(1), var(1)))))
    for steps in range(7):
        yield Run("steps_%d_of_5" % steps, late, steps=steps)
    for name, main in (("value", number(5)), ("sum", add(number(1), number(2))), ("null_thrown", throw(val(1))), ("stuck", var(1))):
        for steps in (0, LARGEST):
            yield Run("steps_%d_%s" % (steps, name), bench(main), steps=steps)
    yield Run("steps_0_too_deep", bench(nested_sums(2)), steps=0, depth=1)
    yield Run("steps_0_too_deep_and_stuck", bench(add(add(add(YES, YES), YES), YES)), steps=0, depth=1)
    for steps in (2, 1000):
        yield Run("steps_%d_forever" % steps, bench(FOREVER), steps=steps)
    yield Run("steps_stop_a_field_set", bench(tree(SET, 7, 4, var(1), number(9)), [8]), heap=heap_of(4, [5, ZERO]), inputs=[ADDRESS_0 + 3], steps=1)
    yield Run("steps_stop_new", bench(seq(new(4), new(4))), heap=heap_of(5), steps=2)


def room_runs():
    five = bench(number(5))
    for depth in (0, 1025, 2 ** 32, 2 ** 32 + 8, 2 ** 60, LARGEST):
        yield Run("depth_%d" % depth, five, depth=depth, room=16 * (depth % 2 ** 32 % 1026) + 160)
    for depth in (1, 8, 1024):
        for less in (0, 1):
            yield Run("depth_%d_room_%d_less" % (depth, less), five, depth=depth, room=16 * depth + 160 - less)
    yield Run("depth_1024_room_0", five, depth=1024, room=0)
    yield Run("depth_1025_room_0", five, depth=1025, room=0)
    for depth in (1, 1024):
        yield Run("depth_%d_room_large" % depth, bench(nested_sums(2)), depth=depth, room=131072)


def depth_runs():
    for depth in (1, 8):
        yield Run("sums_%d_deep" % depth, bench(nested_sums(depth)), depth=depth)
        yield Run("sums_%d_deep_and_one" % depth, bench(nested_sums(depth + 1)), depth=depth)
    for more in (0, 1):
        yield Run("sums_%d_deep_most" % (1024 + more), bench(nested_sums(1024 + more)), depth=1024, steps=2000)
    for name, body in (("value", number(5)), ("sum", add(number(1), number(2)))):
        for depth in (7, 8, 9):
            yield Run("eight_arguments_%s_depth_%d" % (name, depth), eight_arguments(body), depth=depth)
    again = Draft()
    again.classes += [0]
    again.methods = [[4, 9, 2, 0, 0, again.body(call(9, var(0)))]]
    again.body(call(9, new(4)))
    for depth in (1, 9, 1024):
        yield Run("calls_itself_depth_%d" % depth, again.words(), depth=depth, steps=LARGEST)
    inner = block(1, 2, seq(assign(1, number(1)), block(2, 2, seq(assign(2, number(2)), add(var(1), var(2))))))
    for depth in (1, 2, 3):
        yield Run("remembering_blocks_depth_%d" % depth, bench(inner), depth=depth)
        yield Run("unremembered_depth_%d" % depth, bench(block(1, 2, seq(assign(1, add(number(1), number(1))), var(1)))), depth=depth)


def eight_arguments(body):
    """Method 9 takes eight Integers; its call lies at the root, so its blocks take the depths 0 to 8."""
    d = Draft()
    d.classes += [0]
    d.types = [2] * 8
    d.methods = [[4, 9, 2, 0, 8, d.body(body)]]
    d.body(call(9, new(4), *[number(n) for n in range(8)]))
    return d.words()


def easy_errors():
    # A block remembers what comes about by If, Seq and While, and looks once.
    two = seq(assign(1, number(1)), assign(1, number(2)), var(1))
    yield Run("remember_looks_once", bench(block(1, 2, two)))
    for depth in (1, 8):
        yield Run("remember_after_if_depth_%d" % depth, bench(block(1, 2, choose(YES, seq(assign(1, number(3)), var(1)), number(0)))), depth=depth)
        yield Run("remember_after_seq_depth_%d" % depth, bench(block(1, 2, seq(number(0), assign(1, number(3)), var(1)))), depth=depth)
        yield Run("remember_after_while_depth_%d" % depth, bench(block(1, 2, loop(YES, assign(1, number(3))))), depth=depth, steps=4)
    yield Run("remember_assigned_twice", bench(block(1, 2, seq(assign(1, assign(1, number(5))), var(1)))))
    yield Run("remember_assignment_alone", bench(block(1, 2, assign(1, number(2)))))
    yield Run("remember_other_variable", bench(block(1, 2, seq(assign(2, number(2)), var(2)))))
    yield Run("remember_through_a_variable", bench(block(1, 2, seq(assign(1, var(2)), var(1))), [2, 2]), inputs=[ZERO, ZERO + 6])
    # A field is the annotated class's, also where the object's own class hides it.
    d = Draft()
    d.classes += [0, 4]
    d.fields = [[4, 7, 2], [5, 7, 2]]
    d.types, d.inputs = [9], 1
    d.body(seq(tree(SET, 7, 4, var(1), number(40)), add(tree(GET, 7, 4, var(1)), tree(GET, 7, 5, var(1)))))
    yield Run("field_of_the_annotation", d.words(), heap=heap_of(4, [6, ZERO + 1, ZERO + 2]), inputs=[ADDRESS_0 + 3])
    # A null object is thrown at after the value is worked out, and whatever the field or method.
    yield Run("set_null_value_first", bench(tree(SET, 7, 4, val(1), assign(1, number(9))), [2]), inputs=[ZERO])
    yield Run("set_null_value_throws", bench(tree(SET, 7, 4, val(1), throw(new(4)))))
    yield Run("call_null_unknown_method", bench(call(77, val(1), number(1))))
    yield Run("get_null_unknown_field", bench(tree(GET, 77, 0, val(1))))
    # A callee's variables are gone after its return; what it assigns to others stays.
    d = Draft()
    d.classes += [0]
    d.types = [2]
    d.methods = [[4, 9, 2, 0, 1, d.body(seq(assign(2, number(6)), assign(1, number(5))))]]
    d.body(seq(call(9, new(4), number(1)), var(1)))
    yield Run("callee_variable_gone", d.words())
    d.nodes[-2] = var(2)[0]
    yield Run("callee_assignment_stays", d.words())


def stuck_runs():
    object_3 = {"heap": heap_of(4, [5, ZERO]), "inputs": [ADDRESS_0 + 3]}
    nowhere = {"inputs": [ADDRESS_0 + 9]}
    free = {"inputs": [ADDRESS_0 + 3]}
    for name, main in (
            ("cast", tree(CAST, 4, 0, number(1))), ("var", var(5)), ("add", add(number(1), YES)), ("get", tree(GET, 7, 4, number(1))),
            ("set", tree(SET, 7, 4, YES, new(4))), ("call", call(9, number(1))), ("if", choose(number(1), NONE, NONE)),
            ("while", loop(NONE, NONE)), ("throw_unit", throw(NONE)), ("throw_integer", throw(throw(number(1)))), ("this", var(0))):
        yield Run("stuck_%s" % name, bench(main))
    for name, main in (("cast", tree(CAST, 4, 0, var(1))), ("get", tree(GET, 7, 4, var(1))), ("call", call(9, var(1))), ("try", catch(0, 2, throw(var(1)), NONE))):
        yield Run("stuck_%s_nowhere" % name, bench(main, [8]), **nowhere)
        yield Run("stuck_%s_free_slot" % name, bench(main, [8]), **free)
    yield Run("stuck_field_not_had", bench(tree(GET, 7, 4, var(1)), [8]), inputs=[ADDRESS_0 + 1])
    yield Run("stuck_field_of_another_class", bench(tree(SET, 7, 0, var(1), NONE), [8]), **object_3)
    yield Run("stuck_method_not_seen", bench(call(8, var(1)), [8]), **object_3)
    yield Run("stuck_argument_count", bench(call(9, var(1), number(1)), [8]), **object_3)
    yield Run("thrown_nowhere", bench(throw(var(1)), [8]), **nowhere)
    yield Run("thrown_past_a_try", bench(catch(4, 2, throw(var(1)), NONE), [8]), inputs=[ADDRESS_0])
    yield Run("cast_fails", bench(tree(CAST, 4, 0, var(1)), [8]), inputs=[ADDRESS_0])
    yield Run("cast_null", bench(tree(CAST, 4, 0, val(1))))
    yield Run("new_takes_slot_0", bench(new(4)), heap=[0] * 48)


def runs():
    for part in (bench_runs, refused_runs, breached_runs, limit_runs, room_runs, depth_runs, easy_errors, stuck_runs):
        yield from part()


# What is wrong with a line of a run, from its front to its end.
ODD_RUNS = [
    b"run a | 1",
    b"run no_image |",
    b"run no_bars_after_inputs | 1 | 2 | 3",
    b"run no_limits | 1 | 2 | 3 | 4",
    b"run no_depth_limit | 1 | 2 | 3 | 4 | 5",
    b"run empty_depth_limit | 1 | 2 | 3 | 4 | 5 |",
    b"run empty_parts | | | | | |",
    b"run image_letters | 1x | 2 | 3 | 4 | 5 | 6",
    b"run heap_letters | 1 | 2x | 3 | 4 | 5 | 6",
    b"run input_letters | 1 | 2 | 3x | 4 | 5 | 6",
    b"run room_letters | 1 | 2 | 3 | 4x | 5 | 6",
    b"run two_rooms | 1 | 2 | 3 | 4 4 | 5 | 6",
    b"run step_limit_too_large | 1 | 2 | 3 | 4 | 18446744073709551616 | 6",
    b"run depth_limit_too_large | 1 | 2 | 3 | 4 | 5 | 18446744073709551616",
    b"run depth_limit_minus | 1 | 2 | 3 | 4 | 5 | -6",
    b"run a_bar_too_many | 1 | 2 | 3 | 4 | 5 | 6 |",
    b"run a_part_too_many | 1 | 2 | 3 | 4 | 5 | 6 | 7",
    b"run room_wrong_and_the_rest_missing | 1 | 2 | 3 | x",
    b"run room_too_large | 1 | 2 | 3 | 18446744073709551616 | 5 | 6",
    b"run room_too_long | 1 | 2 | 3 | 131073 | 5 | 6",
    b"run room_too_long_and_the_rest_missing | 1 | 2 | 3 | 131073",
    b"run room_too_long_and_no_step_limit | 1 | 2 | 3 | 131073 | | 6",
    b"run empty_room | 1 | 2 | 3 | | 5 | 6",
    b"run empty_room_and_the_rest_missing | 1 | 2 | 3 |",
    b"run two_step_limits | 1 | 2 | 3 | 4 | 5 5 | 6",
    b"run two_depth_limits | 1 | 2 | 3 | 4 | 5 | 6 6",
    b"run no_blank_before_a_bar | 1 | 2 | 3 | 4| 5 | 6",
    b"run blanks_and_zeros\t|\t" + SMALLEST + b"\t|" + SYSTEM + b" ||\t00176 |007 | 1\r",
    b"runs a | 1 | 2 | 3 | 4 | 5 | 6",
    b"ru a | 1 | 2 | 3 | 4 | 5 | 6",
    b"ronform a | 1 | 2 | 3",
    b"cun a | 1 | 2 | 3 | 4 | 5 | 6",
    b"run",
    b"run | 1 | 2 | 3 | 4 | 5 | 6",
    b"run no_bar 1",
]


def print_runs():
    print_case("bench_check_unset", bench(block(1, 2, var(1))))
    print_case("bench_check_arms_differ", bench(choose(YES, val(1), new(4))))
    print_case("bench_check_throw_null", bench(throw(val(1))))
    names = set()
    for run in runs():
        assert run.name not in names, run.name
        names.add(run.name)
        print_run(run)
    for line in ODD_RUNS:
        sys.stdout.buffer.write(line + b"\n")


# ---- damaged images

def likely(random, classes, old):
    """A word that is near some rule's edge."""
    edges = (0, 1, 2, 3, 4, 7, 8, 9, 15, 16, 63, 64, 65535, 65536, 2 ** 31, TOP)
    sort = random.randrange(4)
    if sort == 0:
        return random.choice(edges)
    if sort == 1:
        return (old + random.choice((-4, -2, -1, 1, 2, 4))) % 2 ** 32
    if sort == 2:
        return max(0, classes + random.choice((-1, 0, 1, 3, 4, 5)))
    return random.randrange(12)


def draft_of(words):
    """The tables of an image whose trailer is in order."""
    image = Image(words)
    d = Draft()
    d.classes, d.types = list(image.classes), list(image.types)
    d.fields, d.methods, d.nodes = ([list(r) for r in t] for t in (image.fields, image.methods, image.nodes))
    d.main, d.inputs = image.main, image.inputs
    return d


def damage_record(random, d):
    """Changes, swaps, doubles or drops a record of one table; the trailer goes along."""
    table = random.choice([t for t in (d.classes, d.fields, d.methods, d.types, d.nodes, d.nodes) if t] or [d.classes])
    if not table:
        return
    at = random.choice((0, len(table) - 1, random.randrange(len(table)), random.randrange(len(table))))
    sort = random.randrange(10)
    if sort == 0:
        other = random.randrange(len(table))
        table[at], table[other] = table[other], table[at]
    elif sort == 1:
        table.insert(at, table[at] if isinstance(table[at], int) else list(table[at]))
    elif sort == 2:
        del table[at]
    elif isinstance(table[at], int):
        table[at] = likely(random, len(d.classes), table[at])
    else:
        column = random.randrange(len(table[at]))
        table[at][column] = likely(random, len(d.classes), table[at][column])


def damage_trailer(random, words):
    """Changes one of the last eight words."""
    if len(words) < 8:
        return
    at = random.randrange(1, 9)
    old = words[-at]
    words[-at] = random.choice((0, 7, 8, old + 1, old + 3, old + 6, max(0, old - 1), max(0, old - 4), len(words), TOP, random.choice(words[-8:])))
    words[-at] %= 2 ** 32


def damage_ends(random, words):
    """Cuts the image, or puts words to it, at one end or somewhere in it."""
    n = random.choice((1, 1, 2, 3, 4, 6, 8))
    at = random.choice((0, len(words), random.randrange(len(words) + 1)))
    if random.randrange(2):
        del words[at:at + n]
    else:
        words[at:at] = [random.randrange(6) for _ in range(n)]


def damaged(random, words):
    """One to three of the damages above, on a copy of the words."""
    words = list(words)
    for _ in range(random.choice((1, 1, 1, 2, 3))):
        number, _ = layout(words)
        sort = random.randrange(8)
        if number in (1, 2) or sort == 0:
            damage_trailer(random, words)
        elif sort == 1:
            damage_ends(random, words)
        else:
            d = draft_of(words)
            damage_record(random, d)
            words = d.words()
    return words


def print_damaged(count, seed):
    """Half of the images come from those that hold, where damage reaches the later numbers."""
    images = []
    for line in sys.stdin.buffer:
        try:
            images.append(read_case(line.rstrip(b"\n"))[1])
        except BadLine:
            continue
    images = [words for words in images if len(words) <= 4000]
    right = [words for words in images if layout(words) == (0, 0)]
    rng = random.Random(seed)
    for i in range(count):
        words = rng.choice(right if i % 2 else images)
        print_case("damaged_%d_%d" % (seed, i), damaged(rng, words))


def main():
    if sys.argv[1:] == ["extra"]:
        extra()
    elif sys.argv[1:] == ["runs"]:
        print_runs()
    elif len(sys.argv) == 4 and sys.argv[1] == "damaged":
        print_damaged(int(sys.argv[2]), int(sys.argv[3]))
    else:
        sys.exit(__doc__)


if __name__ == "__main__":
    main()
