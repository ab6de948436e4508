#!/usr/bin/env python3
"""The three questions, written down a second time to compare with.

Reads cases on standard input, one a line:

    check NAME | the image's words in decimal, separated by blanks
    conform NAME | the image's words | the heap's words | the inputs
    run NAME | the image's words | the heap's words | the inputs | words of room | step limit | depth limit

and prints `NAME number place` for each, or `line N: fault F PART WORD` for a
line that is no such case. A run that is not refused prints its end, `NAME number
place count value | the heap's words after it`, with `-` where the end has no
value. An empty line is passed over.

This file follows the written rules and nothing else, in their order, as
plainly as it can. It is slow on purpose: each number is one function that
lists every breach of it, and the answer is the lowest of them. The run goes
down from the root to the active place before every step.
"""
import sys
import threading

CEILINGS = [256, 1024, 1024, 2048, 4096]  # classes, fields, methods, type words, nodes
RECORD = [1, 3, 6, 1, 4]                  # words in a record of each section
MOST_ARGUMENTS = 8
MOST_INPUTS = 8
LAST_NAME = 65535
LAST_VARIABLE = 63
MOST_WORDS = 131072
MOST_NUMBERS = 262160
MOST_PARTS = 15
MOST_SLOTS = 4096
LONGEST_NAME = 64
LONGEST_HEAD = 96

# The kinds of node.
NEW, CAST, VALUE, VAR, ADD, EQ, ASSIGN, GET, SET, CALL, BLOCK, SEQ, IF, WHILE, THROW, TRY = range(16)


class Image:
    """An image whose trailer is in order: its sections as lists of records."""

    def __init__(self, words):
        trailer = words[-8:]
        ends = trailer[1:5] + [8]
        sections = []
        for i in range(5):
            section = words[len(words) - trailer[i]:len(words) - ends[i]]
            size = RECORD[i]
            sections.append([section[k:k + size] for k in range(0, len(section), size)])
        self.classes = [r[0] for r in sections[0]]
        self.fields = sections[1]
        self.methods = sections[2]
        self.types = [r[0] for r in sections[3]]
        self.nodes = sections[4]
        self.main = trailer[5]
        self.inputs = trailer[6]

    def sizes(self):
        return [len(self.classes), len(self.fields), len(self.methods), len(self.types), len(self.nodes)]

    def is_class(self, c):
        return c < len(self.classes)

    def is_type(self, t):
        """Void, Bool, Integer, the null type, or a class of the image."""
        return t < 4 or self.is_class(t - 4)

    def is_declared(self, t):
        """A type that may be declared: any but the null type."""
        return self.is_type(t) and t != 3


# Number 1 and number 2 look at the words alone: there are no sections yet.

def breaches_1(words):
    if len(words) < 8 or words[-1] != 1:
        yield 0


def breaches_2(words):
    trailer = words[-8:]
    if trailer[0] != len(words):
        yield 0
    for i in range(1, 5):
        above = trailer[i - 1]
        here = trailer[i]
        if here > above or here < 8:
            yield i
        elif (above - here) % RECORD[i - 1] != 0:  # the section that word i ends
            yield i
        elif i == 4 and (here - 8) % RECORD[4] != 0:  # nothing ends the nodes but the trailer
            yield i
    if trailer[6] > trailer[3] - trailer[4]:
        yield 6


def breaches_3(image):
    for i, size in enumerate(image.sizes()):
        if size > CEILINGS[i]:
            yield i
    if image.inputs > MOST_INPUTS:
        yield 6


def breaches_4(image):
    for c, above in enumerate(image.classes):
        if c < 4:
            if above != 0:
                yield c
        elif above >= c:
            yield c
    if len(image.classes) < 4:
        yield len(image.classes)


def is_member(image, record):
    """What a field and a method have in common: class, name, and a declared type."""
    owner, name, result = record[0:3]
    return owner >= 4 and image.is_class(owner) and name <= LAST_NAME and image.is_declared(result)


def rises(table, i):
    """Record i stands behind the record before it, by class, then name."""
    return i == 0 or table[i - 1][0:2] < table[i][0:2]


def breaches_5(image):
    for i, record in enumerate(image.fields):
        if not is_member(image, record) or not rises(image.fields, i):
            yield i


def breaches_6(image):
    for i, record in enumerate(image.methods):
        first, count = record[3:5]
        if not is_member(image, record) or not rises(image.methods, i):
            yield i
        elif count > MOST_ARGUMENTS or first + count > len(image.types):
            yield i


def breaches_7(image):
    for i, t in enumerate(image.types):
        if not image.is_declared(t):
            yield i


def is_value(tag, payload):
    """A value that may be written in a program: Unit, Null, a Bool or an Integer."""
    if tag in (0, 1):
        return payload == 0
    if tag == 2:
        return payload in (0, 1)
    return tag == 3


def operands(kind, y):
    """How many operands a node of this kind has."""
    return {0: 0, 1: 1, 2: 0, 3: 0, 4: 2, 5: 2, 6: 1, 7: 1, 8: 2, 9: 1 + y, 10: 1, 11: 2, 12: 3, 13: 2, 14: 1, 15: 2}[kind]


def well_named(image, kind, x, y):
    """x and y are what the kind asks of them."""
    if kind in (0, 1):      # New, Cast
        return image.is_class(x) and y == 0
    if kind == 2:           # Value
        return is_value(x, y)
    if kind in (3, 6):      # Var, Assign
        return x <= LAST_VARIABLE and y == 0
    if kind in (7, 8):      # field get, field set
        return x <= LAST_NAME and image.is_class(y)
    if kind == 9:           # Call
        return x <= LAST_NAME and y <= MOST_ARGUMENTS
    if kind == 10:          # Block
        return 1 <= x <= LAST_VARIABLE and image.is_declared(y)
    if kind == 14:          # Throw
        return image.is_type(x) and y == 0
    if kind == 15:          # Try
        return image.is_class(x) and 1 <= y <= LAST_VARIABLE
    return x == 0 and y == 0  # Add, Eq, Seq, If, While


def is_node(image, i):
    kind, size, x, y = image.nodes[i]
    if kind > 15 or not well_named(image, kind, x, y):
        return False
    begin = i  # where the operands found so far begin: none yet
    for _ in range(operands(kind, y)):
        end = begin - 1  # the operand ends one place before what follows it
        if end < 0:
            return False
        begin = end - image.nodes[end][1] + 1
    return begin >= 0 and size == i - begin + 1


def breaches_8(image):
    # A node is judged by the sizes of the nodes before it, so the first broken
    # one is the only one whose place means anything.
    for i in range(len(image.nodes)):
        if not is_node(image, i):
            yield i
            return


def breaches_9(image):
    bodies = [record[5] for record in image.methods] + [image.main]
    begin = 0
    for place, body in enumerate(bodies):
        if body >= len(image.nodes) or body + 1 - image.nodes[body][1] != begin:
            yield place
            return
        begin = body + 1
    if begin != len(image.nodes):
        yield len(image.methods)


def layout(words):
    """The answer: the lowest number that is broken with its lowest place, or 0 0."""
    for number, breaches in ((1, breaches_1), (2, breaches_2)):
        places = list(breaches(words))
        if places:
            return number, min(places)
    image = Image(words)
    rules = (breaches_3, breaches_4, breaches_5, breaches_6, breaches_7, breaches_8, breaches_9)
    for number, breaches in enumerate(rules, 3):
        places = list(breaches(image))
        if places:
            return number, min(places)
    return 0, 0


# From here on the layout holds. A type is its word; a class c is the type 4 + c.

VOID, BOOL, INTEGER, NULL_TYPE = 0, 1, 2, 3
MOST_FIELDS_ABOVE = 15
EVERY_VARIABLE = frozenset(range(64))


def above(image, c):
    """The classes from c upwards."""
    chain = [c]
    while c != 0:
        c = image.classes[c]
        chain.append(c)
    return chain


def is_subtype(image, t, u):
    if t == u:
        return True
    if t == NULL_TYPE:
        return u >= 4
    return t >= 4 and u >= 4 and u - 4 in above(image, t - 4)


def seen(image, table, c, name):
    """The record of that name in the first class that declares it, going up from c."""
    for d in above(image, c):
        for record in table:
            if record[0:2] == [d, name]:
                return record
    return None


def parameters(image, method):
    return image.types[method[3]:method[3] + method[4]]


def breaches_10(image):
    for c in range(len(image.classes)):
        line = above(image, c)
        if sum(1 for record in image.fields if record[0] in line) > MOST_FIELDS_ABOVE:
            yield c


def breaches_11(image):
    for i, method in enumerate(image.methods):
        other = seen(image, image.methods, image.classes[method[0]], method[1])
        if other is None:
            continue
        mine, theirs = parameters(image, method), parameters(image, other)
        if len(mine) != len(theirs):
            yield i
        elif not all(is_subtype(image, u, t) for t, u in zip(mine, theirs)):
            yield i
        elif not is_subtype(image, method[2], other[2]):
            yield i


def operand_nodes(image, n):
    """The last nodes of the operands of node n, first operand first."""
    kind, _, _, y = image.nodes[n]
    found = []
    end = n - 1
    for _ in range(operands(kind, y)):
        found.insert(0, end)
        end -= image.nodes[end][1]
    return found


def bodies(image):
    """Each body: its node, its environment, its first variables, and the type that its own must be below."""
    for method in image.methods:
        types = [4 + method[0]] + parameters(image, method)
        yield method[5], dict(enumerate(types)), frozenset(range(len(types))), method[2]
    types = image.types[len(image.types) - image.inputs:]
    yield image.main, dict(enumerate(types, 1)), frozenset(range(1, len(types) + 1)), None


def type_of(image, n, env, untyped):
    """The type of node n, or None; every node without a type goes into the list."""
    kind, _, x, y = image.nodes[n]
    types = []
    for i, m in enumerate(operand_nodes(image, n)):
        inner = env
        if kind == 10:
            inner = env | {x: y}
        elif kind == 15 and i == 1:
            inner = env | {y: 4 + x}
        types.append(type_of(image, m, inner, untyped))
    found = None
    if None not in types:
        found = own_type(image, kind, x, y, env, types)
    if found is None:
        untyped.append(n)
    return found


def own_type(image, kind, x, y, env, types):
    """The type of a node whose operands have these types."""
    first = types[0] if types else None
    if kind == 0:                                       # New
        return 4 + x
    if kind == 1:                                       # Cast
        related = first >= 4 and (is_subtype(image, first, 4 + x) or is_subtype(image, 4 + x, first))
        return 4 + x if related else None
    if kind == 2:                                       # Value
        return {0: VOID, 1: NULL_TYPE, 2: BOOL, 3: INTEGER}[x]
    if kind == 3:                                       # Var
        return env.get(x)
    if kind == 4:                                       # Add
        return INTEGER if types == [INTEGER, INTEGER] else None
    if kind == 5:                                       # Eq
        return BOOL if is_subtype(image, types[0], types[1]) or is_subtype(image, types[1], types[0]) else None
    if kind == 6:                                       # Assign
        return first if x != 0 and x in env and is_subtype(image, first, env[x]) else None
    if kind in (7, 8):                                  # field get, field set
        record = seen(image, image.fields, first - 4, x) if first >= 4 else None
        if record is None or record[0] != y:
            return None
        if kind == 7:
            return record[2]
        return types[1] if is_subtype(image, types[1], record[2]) else None
    if kind == 9:                                       # Call
        method = seen(image, image.methods, first - 4, x) if first >= 4 else None
        if method is None or len(types) - 1 != method[4]:
            return None
        fits = all(is_subtype(image, t, u) for t, u in zip(types[1:], parameters(image, method)))
        return method[2] if fits else None
    if kind == 10:                                      # Block
        return first
    if kind == 11:                                      # Seq
        return types[1]
    if kind == 12:                                      # If
        return types[1] if first == BOOL and types[1] == types[2] else None
    if kind == 13:                                      # While
        return VOID if first == BOOL else None
    if kind == 14:                                      # Throw
        return x if first >= 4 else None
    return first if types[0] == types[1] else None      # Try


def breaches_12(image):
    for body, env, _, result in bodies(image):
        untyped = []
        found = type_of(image, body, env, untyped)
        yield from untyped
        if found is not None and result is not None and not is_subtype(image, found, result):
            yield body


def after(image, n, before, unset):
    """The variables surely set after node n; every node that reads another one goes into the list."""
    kind, _, x, y = image.nodes[n]
    below = operand_nodes(image, n)
    if kind == 3:                                       # Var
        if x not in before:
            unset.append(n)
        return before
    if kind == 10:                                      # Block
        inner = after(image, below[0], before - {x}, unset)
        return inner | {x} if x in before else inner - {x}
    if kind == 12:                                      # If
        middle = after(image, below[0], before, unset)
        return after(image, below[1], middle, unset) & after(image, below[2], middle, unset)
    if kind == 13:                                      # While
        middle = after(image, below[0], before, unset)
        after(image, below[1], middle, unset)
        return middle
    if kind == 15:                                      # Try
        first = after(image, below[0], before, unset)
        second = after(image, below[1], before | {y}, unset)
        return first & (second | {y} if y in before else second - {y})
    for m in below:
        before = after(image, m, before, unset)
    if kind == 6:                                       # Assign
        return before | {x}
    return EVERY_VARIABLE if kind == 14 else before     # Throw; all others


def breaches_13(image):
    for body, _, start, _ in bodies(image):
        unset = []
        after(image, body, start, unset)
        yield from unset


def check(words):
    """The answer of the image check."""
    number, place = layout(words)
    if number:
        return number, place
    image = Image(words)
    for number, breaches in enumerate((breaches_10, breaches_11, breaches_12, breaches_13), 10):
        places = list(breaches(image))
        if places:
            return number, min(places)
    return 0, 0


def is_value_word(word):
    """A value that may stand in a heap: one of a program, or an address."""
    tag, payload = word >> 32, word % 2 ** 32
    return is_value(tag, payload) or tag == 4 and payload < MOST_SLOTS


def fields_of(image, c):
    """The types of an object's fields, those of the highest class first."""
    return [record[2] for d in reversed(above(image, c)) for record in image.fields if record[0] == d]


def is_of(image, heap, word, t):
    """Whether the value of a word conforms to a type."""
    tag, payload = word >> 32, word % 2 ** 32
    if tag == 4:
        first = heap[16 * payload] if 16 * payload < len(heap) else 0
        return first != 0 and is_subtype(image, 4 + first - 1, t)
    return is_subtype(image, (0, NULL_TYPE, 1, 2)[tag], t)


def breaches_14(image, heap, inputs):
    if len(heap) % 16 != 0 or not 3 <= len(heap) // 16 <= MOST_SLOTS:
        yield 0


def breaches_15(image, heap, inputs):
    for a in range(0, len(heap), 16):
        first = heap[a]
        if first > len(image.classes):
            yield a
        if not 1 <= first <= len(image.classes):
            count = 0
        else:
            count = len(fields_of(image, first - 1))
        for k in range(1, 16):
            if not (is_value_word(heap[a + k]) if k <= count else heap[a + k] == 0):
                yield a + k


def breaches_16(image, heap, inputs):
    if len(inputs) != image.inputs:
        yield image.inputs
    for i, word in enumerate(inputs):
        if not is_value_word(word):
            yield i


def breaches_17(image, heap, inputs):
    for a in range(3):
        if heap[16 * a] != a + 2:
            yield 16 * a
    for a in range(0, len(heap), 16):
        if heap[a]:
            for k, t in enumerate(fields_of(image, heap[a] - 1), 1):
                if not is_of(image, heap, heap[a + k], t):
                    yield a + k


def breaches_18(image, heap, inputs):
    types = image.types[len(image.types) - image.inputs:]
    for i, word in enumerate(inputs):
        if not is_of(image, heap, word, types[i]):
            yield i


def loose(words, heap, inputs):
    """The answer as far as conformity check and run ask the same: 1 to 10 and 14 to 16."""
    number, place = layout(words)
    if number:
        return number, place
    image = Image(words)
    places = list(breaches_10(image))
    if places:
        return 10, min(places)
    for number, breaches in enumerate((breaches_14, breaches_15, breaches_16), 14):
        places = list(breaches(image, heap, inputs))
        if places:
            return number, min(places)
    return 0, 0


def conform(words, heap, inputs):
    """The answer of the conformity check."""
    number, place = loose(words, heap, inputs)
    if number:
        return number, place
    image = Image(words)
    for number, breaches in enumerate((breaches_17, breaches_18), 17):
        places = list(breaches(image, heap, inputs))
        if places:
            return number, min(places)
    return 0, 0


# The run. A value is its word. An expression is a tree, and every step makes a new one.

UNIT, NULL, FALSE, TRUE, ZERO, ADDRESS_0 = 0, 1 << 32, 2 << 32, (2 << 32) + 1, 3 << 32, 4 << 32
NULL_POINTER, CLASS_CAST, OUT_OF_MEMORY = 0, 1, 2  # the addresses of the system exceptions
MOST_DEPTH = 1024


class Tree:
    """An expression: its kind, the node it stands for, x and y, and its operands.

    A value has its word. A block has the word that it remembers, or None.
    """

    __slots__ = ("kind", "place", "x", "y", "parts", "word")

    def __init__(self, kind, place, x=0, y=0, parts=(), word=None):
        self.kind = kind
        self.place = place
        self.x = x
        self.y = y
        self.parts = parts
        self.word = word

    def with_part(self, i, part):
        parts = self.parts[:i] + (part,) + self.parts[i + 1:]
        return Tree(self.kind, self.place, self.x, self.y, parts, self.word)


def value(place, word):
    return Tree(VALUE, place, word=word)


def thrown(place, a):
    """Throw of an address."""
    return Tree(THROW, place, parts=(value(place, ADDRESS_0 + a),))


def remembering(place, x, word, body):
    return Tree(BLOCK, place, x, parts=(body,), word=word)


def settled(block):
    """The block itself; where it does not remember and its body is `V := value; e` for its own V, it remembers that value."""
    body = block.parts[0]
    if block.word is None and body.kind == SEQ:
        first, rest = body.parts
        if first.kind == ASSIGN and first.x == block.x and first.parts[0].kind == VALUE:
            return remembering(block.place, block.x, first.parts[0].word, rest)
    return block


def load(image):
    """The tree of each node."""
    trees = []
    for n, (kind, _, x, y) in enumerate(image.nodes):
        parts = tuple(trees[m] for m in operand_nodes(image, n))
        tree = Tree(kind, n, x, y, parts)
        if kind == VALUE:
            tree = value(n, (x << 32) + y)
        if kind == BLOCK:
            tree = settled(tree)
        trees.append(tree)
    return trees


def is_address(tree):
    return tree.kind == VALUE and tree.word >> 32 == 4


def address(word):
    return word % 2 ** 32


def is_thrown(tree):
    return tree.kind == THROW and is_address(tree.parts[0])


def is_final(tree):
    return tree.kind == VALUE or is_thrown(tree)


def first_operands(tree):
    """The operands that are worked out before the node itself, in their order."""
    if tree.kind in (CAST, ASSIGN, GET, BLOCK, SEQ, IF, THROW, TRY):
        return tree.parts[:1]
    if tree.kind in (ADD, EQ, SET, CALL):
        return tree.parts
    return ()  # New, Value, Var, While


def operand_to_step(tree):
    """The number of the operand that the rules let step, or None."""
    for i, part in enumerate(first_operands(tree)):
        if not is_final(part):
            return i
        if is_thrown(part):
            return None
    return None


def with_variable(store, x, word):
    return store[:x] + (word,) + store[x + 1:]


def find_active(tree, store):
    """The way to the active place: each tree above it with the operand gone into and the store outside; then the place and its store."""
    way = []
    while True:
        i = operand_to_step(tree)
        if i is None:
            return way, tree, store
        way.append((tree, i, store))
        if tree.kind == BLOCK:
            store = with_variable(store, tree.x, tree.word)
        tree = tree.parts[i]


def put_back(way, tree, store):
    """The whole expression and its store, when the active place has become this tree and left this store."""
    for around, i, outside in reversed(way):
        tree = around.with_part(i, tree)
        if around.kind == BLOCK:
            tree.word = store[around.x]
            tree = settled(tree)
            store = with_variable(store, around.x, outside[around.x])
    return tree, store


class State:
    """Heap and store at the active place, and the program."""

    def __init__(self, image, trees, heap, store):
        self.image = image
        self.trees = trees
        self.heap = heap
        self.store = store

    def class_at(self, a):
        """The class of the object at an address, or None."""
        first = self.heap[16 * a] if 16 * a < len(self.heap) else 0
        return first - 1 if first else None

    def field_at(self, a, owner, name):
        """The heap word of an object's field that a class declares, or None."""
        c = self.class_at(a)
        if c is None:
            return None
        keys = [record[0:2] for d in reversed(above(self.image, c)) for record in self.image.fields if record[0] == d]
        return 16 * a + 1 + keys.index([owner, name]) if [owner, name] in keys else None

    def with_words(self, at, words):
        heap = list(self.heap)
        heap[at:at + len(words)] = words
        return heap


# Each rule takes the state and a tree whose operands are worked out. It gives the tree that comes after it with heap and store,
# or None where the report has no rule.

def rule_new(state, tree):
    for a in range(len(state.heap) // 16):
        if state.class_at(a) is None:
            first = {VOID: UNIT, BOOL: FALSE, INTEGER: ZERO}
            words = [tree.x + 1] + [first.get(t, NULL) for t in fields_of(state.image, tree.x)]
            return value(tree.place, ADDRESS_0 + a), state.with_words(16 * a, words), state.store
    return thrown(tree.place, OUT_OF_MEMORY), state.heap, state.store


def rule_cast(state, tree):
    operand = tree.parts[0]
    if operand.word == NULL:
        return operand, state.heap, state.store
    if not is_address(operand):
        return None
    c = state.class_at(address(operand.word))
    if c is None:
        return None
    if tree.x in above(state.image, c):
        return operand, state.heap, state.store
    return thrown(tree.place, CLASS_CAST), state.heap, state.store


def rule_var(state, tree):
    word = state.store[tree.x]
    if word is None:
        return None
    return value(tree.place, word), state.heap, state.store


def rule_add(state, tree):
    a, b = (part.word for part in tree.parts)
    if a >> 32 != 3 or b >> 32 != 3:
        return None
    return value(tree.place, ZERO + (a + b) % 2 ** 32), state.heap, state.store


def rule_eq(state, tree):
    a, b = (part.word for part in tree.parts)
    return value(tree.place, TRUE if a == b else FALSE), state.heap, state.store


def rule_assign(state, tree):
    word = tree.parts[0].word
    return value(tree.place, word), state.heap, with_variable(state.store, tree.x, word)


def rule_get(state, tree):
    operand = tree.parts[0]
    if operand.word == NULL:
        return thrown(tree.place, NULL_POINTER), state.heap, state.store
    at = state.field_at(address(operand.word), tree.y, tree.x) if is_address(operand) else None
    if at is None:
        return None
    return value(tree.place, state.heap[at]), state.heap, state.store


def rule_set(state, tree):
    operand, new = tree.parts
    if operand.word == NULL:
        return thrown(tree.place, NULL_POINTER), state.heap, state.store
    at = state.field_at(address(operand.word), tree.y, tree.x) if is_address(operand) else None
    if at is None:
        return None
    return new, state.with_words(at, [new.word]), state.store


def rule_call(state, tree):
    receiver, arguments = tree.parts[0], tree.parts[1:]
    if receiver.word == NULL:
        return thrown(tree.place, NULL_POINTER), state.heap, state.store
    c = state.class_at(address(receiver.word)) if is_address(receiver) else None
    method = seen(state.image, state.image.methods, c, tree.x) if c is not None else None
    if method is None or method[4] != len(arguments):
        return None
    body = state.trees[method[5]]
    for x in reversed(range(len(tree.parts))):  # `this` outermost
        body = remembering(tree.place, x, tree.parts[x].word, body)
    return body, state.heap, state.store


def rule_block(state, tree):
    return tree.parts[0], state.heap, state.store


def rule_seq(state, tree):
    return tree.parts[1], state.heap, state.store


def rule_if(state, tree):
    test = tree.parts[0].word
    if test >> 32 != 2:
        return None
    return tree.parts[1 if test == TRUE else 2], state.heap, state.store


def rule_while(state, tree):
    test, body = tree.parts
    again = Tree(SEQ, tree.place, parts=(body, tree))
    return Tree(IF, tree.place, parts=(test, again, value(tree.place, UNIT))), state.heap, state.store


def rule_throw(state, tree):
    if tree.parts[0].word != NULL:  # Throw of an address is final, and not active
        return None
    return thrown(tree.place, NULL_POINTER), state.heap, state.store


def rule_try(state, tree):
    return tree.parts[0], state.heap, state.store


def rule_catch(state, tree):
    """A Try whose first part throws an address."""
    exception = tree.parts[0].parts[0].word
    c = state.class_at(address(exception))
    if c is None:
        return None
    if tree.x in above(state.image, c):
        return remembering(tree.place, tree.y, exception, tree.parts[1]), state.heap, state.store
    return tree.parts[0], state.heap, state.store


def rule_outward(state, tree):
    """Any other node with an operand that throws an address: the exception moves outward."""
    exception = next(part for part in first_operands(tree) if is_thrown(part))
    return exception, state.heap, state.store


RULES = {
    NEW: rule_new, CAST: rule_cast, VAR: rule_var, ADD: rule_add, EQ: rule_eq, ASSIGN: rule_assign, GET: rule_get,
    SET: rule_set, CALL: rule_call, BLOCK: rule_block, SEQ: rule_seq, IF: rule_if, WHILE: rule_while,
    THROW: rule_throw, TRY: rule_try,
}


def step(state, tree):
    """What the active place becomes."""
    if any(is_thrown(part) for part in first_operands(tree)):
        return rule_catch(state, tree) if tree.kind == TRY else rule_outward(state, tree)
    return RULES[tree.kind](state, tree)


def reduce(image, heap, inputs, limit, depth):
    """The end of a run: number, place, count, value or None, and the heap."""
    trees = load(image)
    tree = trees[image.main]
    store = (None,) + tuple(inputs) + (None,) * (LAST_VARIABLE - len(inputs))
    count = 0
    while True:
        if tree.kind == VALUE:
            return 30, 0, count, tree.word, heap
        if is_thrown(tree):
            return 31, 0, count, tree.parts[0].word, heap
        way, place, inner = find_active(tree, store)
        if len(way) > depth:
            return 33, 0, count, None, heap
        found = step(State(image, trees, heap, inner), place)
        if found is None:
            return 34, place.place, count, None, heap
        if count == limit:
            return 32, 0, count, None, heap
        became, heap, inner = found
        tree, store = put_back(way, became, inner)
        count += 1


def run(words, heap, inputs, room, limit, depth):
    """The answer of the run: number and place; an end has count, value and heap too."""
    number, place = loose(words, heap, inputs)
    if number:
        return number, place
    if not 1 <= depth <= MOST_DEPTH:
        return 19, 0
    if room < 16 * depth + 160:
        return 20, 0
    return reduce(Image(words), heap, inputs, limit, depth)


class BadLine(Exception):
    """A line that is no case: the fault's number, the part, counted from 1, and the word in it, from 0."""

    def __init__(self, fault, part, word):
        super().__init__("fault %d %d %d" % (fault, part, word))


def split(text):
    """The parts between blanks: space, tab and carriage return."""
    for blank in (b"\t", b"\r"):
        text = text.replace(blank, b" ")
    return [part for part in text.split(b" ") if part]


def word_of(text, bits):
    """The decimal number of so many bits that the text is, or None."""
    digits = text.lstrip(b"0") or b"0"
    if not all(48 <= b <= 57 for b in digits) or len(digits) > 20:
        return None
    return int(digits) if int(digits) < 2 ** bits else None


def parts_of(line):
    """The numbers of each part. Without a bar there is no part."""
    parts = []
    left = MOST_NUMBERS
    for text in line.split(b"|")[1:]:
        words = []
        for token in split(text):
            word = word_of(token, 64)
            if word is None:
                raise BadLine(5, len(parts) + 1, len(words))
            if len(words) == MOST_WORDS or left == 0:
                raise BadLine(6, len(parts) + 1, len(words))
            words.append(word)
            left -= 1
        if len(parts) == MOST_PARTS:
            raise BadLine(7, len(parts) + 1, len(words))
        parts.append(words)
    return parts


def read_line(line):
    """The question, the name and the parts of a case."""
    try:
        parts, wrong = parts_of(line), None
        place = len(parts) + 1, 0
    except BadLine as fault:
        parts, wrong = [], fault
        place = tuple(int(n) for n in str(fault).split()[2:])
    text = line.partition(b"|")[0]
    head = split(text)
    if len(b" ".join(head)) + text.endswith((b" ", b"\t", b"\r")) > LONGEST_HEAD:
        place = 0, 0  # nothing behind so long a head is read
    if head[:1] not in ([b"check"], [b"conform"], [b"run"]):
        raise BadLine(1, *place)
    if len(head) < 2:
        raise BadLine(2, *place)
    if len(head[1]) > LONGEST_NAME:
        raise BadLine(3, *place)
    if len(head) > 2 or b"|" not in line:
        raise BadLine(4, *place)
    if wrong:
        raise wrong
    question, name = head
    if len(parts) != {b"check": 1, b"conform": 3, b"run": 6}[question]:
        raise BadLine(7, *place)
    for k, word in enumerate(parts[0]):
        if word >= 2 ** 32:
            raise BadLine(8, 1, k)
    for k in range(3, len(parts)):
        if len(parts[k]) != 1:
            raise BadLine(9, k + 1, 0)
    if question == b"run" and parts[3][0] > MOST_WORDS:
        raise BadLine(10, 0, 0)
    return question, name, parts


def read_case(line):
    """The name and the image of a case."""
    question, name, parts = read_line(line)
    return name, parts[0]


def answer(line):
    """The line that answers a case."""
    question, name, parts = read_line(line)
    if question == b"check":
        found = check(*parts)
    elif question == b"conform":
        found = conform(*parts)
    else:
        found = run(*parts[:3], *(part[0] for part in parts[3:]))
    text = b"%s %d %d" % ((name,) + found[:2])
    if len(found) > 2:
        count, word, heap = found[2:]
        text += b" %d %s | %s" % (count, b"-" if word is None else b"%d" % word, b" ".join(b"%d" % w for w in heap))
    return text


def main():
    out = sys.stdout.buffer
    for number, line in enumerate(sys.stdin.buffer, 1):
        line = line.rstrip(b"\n")
        if not split(line):
            continue
        try:
            out.write(answer(line) + b"\n")
        except BadLine as wrong:
            out.write(b"line %d: %s\n" % (number, str(wrong).encode()))


if __name__ == "__main__":
    # A tree may be as deep as it has nodes.
    sys.setrecursionlimit(100000)
    threading.stack_size(512 * 1024 * 1024)
    work = threading.Thread(target=main)
    work.start()
    work.join()
