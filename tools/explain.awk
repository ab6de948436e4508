# An image for a person: its classes with their fields and methods, each body as a tree, and a mark at the place of a
# refusal. Standard input has the image's bytes, as `od -An -v -tu1` writes them; `number` and `place` are the answer of
# the image check, and `meaning` is what the number means. An image whose layout is broken is shown around the place.
# Every word is read by word() or trailer(), which test its place, and no loop runs longer than the image has words.

BEGIN { CLASSES = 0; FIELDS = 1; METHODS = 2; TYPES = 3; NODES = 4; TRAILER = 5 }

{ for (i = 1; i <= NF; i++) take($i) }

END {
    if (number == 0 || number > 9) show_classes()
    else show_broken()
}

# A word is four bytes, little end first.
function take(byte) {
    value += byte * factor[bytes % 4]
    if (++bytes % 4 == 0) { words[count++] = value; value = 0 }
}
BEGIN { factor[0] = 1; factor[1] = 256; factor[2] = 65536; factor[3] = 16777216; count = 0 }

# A number in digits, whatever its size.
function digits(n) { return sprintf("%.0f", n) }

# Words by section and record. Where there is no such word it is 0.
function trailer(j) { return count < 8 ? 0 : words[count - 8 + j] }
function distance(section) { return section == TRAILER ? 8 : trailer(section) }
function size_of(section) { return section == FIELDS ? 3 : section == METHODS ? 6 : section == NODES ? 4 : 1 }
function records(section,    all) {
    all = distance(section) - distance(section + 1)
    if (all < 0) return 0
    if (all > count) all = count
    return int(all / size_of(section))
}
function word(section, i, k,    start, at) {
    start = distance(section)
    at = size_of(section) * i + k
    return i >= 65536 || count < start || start <= at ? 0 : words[count - start + at]
}

# Classes, types and values by name.
function class(c) { return "class " digits(c) (c == 0 ? " Object" : c == 1 ? " NullPointer" : c == 2 ? " ClassCast" : c == 3 ? " OutOfMemory" : "") }
function type(w) { return w == 0 ? "Void" : w == 1 ? "Bool" : w == 2 ? "Integer" : w == 3 ? "the null type" : class(w - 4) }
function variable(v) { return digits(v) (v == 0 ? ", this" : "") }
function literal(tag, payload) {
    if (tag == 0 && payload == 0) return "Unit"
    if (tag == 1 && payload == 0) return "Null"
    if (tag == 2 && payload < 2) return payload ? "true" : "false"
    if (tag == 3) return "Integer " digits(payload < 2147483648 ? payload : payload - 4294967296)
    if (tag == 4 && payload < 4096) return "address " digits(payload)
    return "a word that is no value"
}

# The section whose record a number's place is. Number 1 has no place of its own.
function section_of(n) {
    if (n == 2 || n == 3) return TRAILER
    if (n == 4 || n == 10) return CLASSES
    if (n == 5) return FIELDS
    if (n == 6 || n == 9 || n == 11) return METHODS
    if (n == 7) return TYPES
    if (n == 8 || n == 12 || n == 13) return NODES
    return 6
}

# The line of a record. The one at the place of the refusal gets the number and its meaning.
function mark() { return "   <-- " number ": " meaning }
function line(text, section, i) { print text (section_of(number) == section && place == i ? mark() : "") }

# The classes with what each declares, and main. Fields and methods stand in the order of their classes.
function show_classes(    c, f, m, all, fields, methods) {
    all = records(CLASSES)
    fields = records(FIELDS)
    methods = records(METHODS)
    for (c = f = m = 0; c < all; c++) {
        line(class(c) (c > 0 ? ", below " class(word(CLASSES, c, 0)) : ""), CLASSES, c)
        for (; f < fields && word(FIELDS, f, 0) == c; f++) show_field(f)
        for (; m < methods && word(METHODS, m, 0) == c; m++) show_method(m)
    }
    show_main()
}
function show_field(i) {
    line("  field " i ": name " digits(word(FIELDS, i, 1)) ", " type(word(FIELDS, i, 2)), FIELDS, i)
}
function show_method(i) {
    show_body("  method " i ": name " digits(word(METHODS, i, 1)) ", " takes(word(METHODS, i, 3), word(METHODS, i, 4)) type(word(METHODS, i, 2)), word(METHODS, i, 5), i)
}
# Main is counted after the last method. Its inputs take the last type words, and its type is its body's.
function show_main(    inputs, from) {
    inputs = trailer(6)
    from = records(TYPES) - inputs
    show_body("main: " takes(from < 0 ? 0 : from, inputs) "any type", trailer(5), records(METHODS))
}
# The types of so many parameters from a type word on, each with the variable that it is.
function takes(from, many,    i, text) {
    for (i = 0; i < many && i < count; i++) text = text (i > 0 ? ", " : "") (i + 1) ": " type(word(TYPES, from + i, 0))
    return "takes (" text "), gives "
}
function show_body(text, root, i) {
    line(text ", nodes " digits(first_node(root)) " to " digits(root), METHODS, i)
    show_tree(root)
}

# A body as a tree: a node a line, and its operands below it, two blanks further right. The nodes that wait for their
# lines are a stack.
function show_tree(root,    left, n, at) {
    waiting[0] = root
    level[0] = 0
    top = 1
    for (left = word(NODES, root, 1); left > 0 && top > 0 && left <= count; left--) {
        top--
        n = waiting[top]
        at = level[top]
        line(indent(at) digits(n) " " node(word(NODES, n, 0), word(NODES, n, 2), word(NODES, n, 3)), NODES, n)
        wait_operands(n, at + 1)
    }
}
# The last operand ends just before its node, and waits longest.
function wait_operands(n, deeper,    many, end, i) {
    many = operands(word(NODES, n, 0), word(NODES, n, 3))
    end = n
    for (i = 0; i < many && end > 0 && i < count; i++) {
        waiting[top] = end - 1
        level[top] = deeper
        top++
        end = first_node(end - 1)
    }
}
function first_node(n,    others) {
    others = word(NODES, n, 1) - 1
    if (others < 0) others = 0
    return n < others ? 0 : n - others
}
function operands(kind, y) {
    if (kind == 9) return y + 1
    return kind == 12 ? 3 : index(" 4 5 8 11 13 15 ", " " kind " ") ? 2 : index(" 1 6 7 10 14 ", " " kind " ") ? 1 : 0
}
# Deeper levels than 40 are told as a number, and stand no further right.
function indent(at) { return at > 40 ? sprintf("%84s(level %d) ", "", at) : sprintf("%" (2 * at + 4) "s", "") }

# A node in words: its constructor and what it holds.
function node(kind, x, y) {
    if (kind == 0) return "New " class(x)
    if (kind == 1) return "Cast to " class(x)
    if (kind == 2) return "Value " literal(x, y)
    if (kind == 3) return "Var " variable(x)
    if (kind == 4) return "Add"
    if (kind == 5) return "Eq"
    if (kind == 6) return "Assign to " variable(x)
    if (kind == 7) return "Get field " digits(x) " of " class(y)
    if (kind == 8) return "Set field " digits(x) " of " class(y)
    if (kind == 9) return "Call method " digits(x) ", arguments: " digits(y)
    if (kind == 10) return "Block of variable " digits(x) ", " type(y)
    if (kind == 11) return "Seq"
    if (kind == 12) return "If"
    if (kind == 13) return "While"
    if (kind == 14) return "Throw, as " type(x)
    if (kind == 15) return "Try, catching " class(x) " in variable " digits(y)
    return "no kind of node"
}

# An image whose layout is broken: its trailer words, and the records around the place, word by word. The sections before
# the broken one hold what they should.
function show_broken() {
    print "words: " count
    if (count < 8) return
    trailer_line(0, "words from the first class to the end")
    trailer_line(1, "words from the first field to the end")
    trailer_line(2, "words from the first method to the end")
    trailer_line(3, "words from the first type word to the end")
    trailer_line(4, "words from the first node to the end")
    trailer_line(5, "the main node")
    trailer_line(6, "the number of main's inputs")
    trailer_line(7, "the format")
    if (number == 9) print "nodes: " records(NODES)
    if (number > 3) show_around(section_of(number))
    if (number == 9) {
        line("main: body node " digits(trailer(5)), METHODS, records(METHODS))
        show_last(trailer(5))
    }
}
# The format is the one trailer word that number 1 is about.
function trailer_line(j, what) {
    line("trailer word " j ": " digits(trailer(j)) ", " what (number == 1 && j == 7 ? mark() : ""), TRAILER, j)
}
# Three records before the place, and one after it. Where there are too few classes, the place is that of the first one
# that is missing.
function show_around(section,    all, i) {
    all = records(section)
    for (i = place < 3 ? 0 : place - 3; i < all && i <= place + 1; i++) {
        line(record(section, i), section, i)
        if (number == 9) show_last(word(METHODS, i, 5))
    }
    if (number == 4 && place == all) line("class " all ": there is none", CLASSES, all)
}
function part(name, section, i, k) { return name digits(word(section, i, k)) }
function record(section, i) {
    if (section == CLASSES) return part("class " i ": superclass ", section, i, 0)
    if (section == FIELDS) return part("field " i ": class ", section, i, 0) part(", name ", section, i, 1) part(", type ", section, i, 2)
    if (section == METHODS) return part("method " i ": class ", section, i, 0) part(", name ", section, i, 1) part(", result type ", section, i, 2) part(", first argument type ", section, i, 3) part(", argument count ", section, i, 4) part(", body node ", section, i, 5)
    if (section == TYPES) return part("type word " i ": ", section, i, 0)
    return part("node " digits(i) ": kind ", section, i, 0) part(", size ", section, i, 1) part(", x ", section, i, 2) part(", y ", section, i, 3)
}
# The last node of a body.
function show_last(n) { print "  " (n < records(NODES) ? record(NODES, n) : "node " digits(n) ": there is none") }
