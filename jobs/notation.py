"""Tables as text, and text as tables: docs/GUIDE.md, "A table as text", has the notation.

`text_of` writes a table's text, `table_of` reads a text's table; each is the other's inverse. A table outside the written grammar
raises `Declined` with number and entry, as `orcrun` prints them, and with the place in its text where it has one; a text outside the
notation raises `Outside` with the place of the first byte that in no text follows those before it.
"""

import struct

# The most bytes of a job, and of a table's definitions and entries.
LONGEST, DEFINITIONS, ENTRIES = 65536, 32, 512
BYTES = b"\n(),-/0123456789<=>acdgloprstv|"
BUILT_IN = (1, 1, 1, 0, 2, 2, 2, 1)
# A record with this handle names the time.
CLOCK = 0xFFFFFFFF
JOINS = {3: "|", 4: ">v{}>", 5: "<v{}<"}


class Declined(Exception):
    def __str__(self):
        return "table {} {}".format(*self.args)


class Outside(Exception):
    def __str__(self):
        return "text 19 {}".format(*self.args)


def encode(d, rows):
    """D, N, the kinds, the operands; all little-endian."""
    kinds = bytes(kind for kind, _ in rows)
    operands = b"".join(struct.pack("<I", operand & 0xFFFFFFFF) for _, operand in rows)
    return struct.pack("<HH", d, len(rows)) + kinds + operands


def split(job):
    """D, the entries, and what follows the table."""
    if len(job) < 4:
        raise Declined(1, 0)
    d, n = struct.unpack_from("<HH", job)
    end = 4 + 5 * n
    if len(job) < end:
        raise Declined(1, 0)
    return d, list(zip(job[4:4 + n], struct.unpack_from(f"<{n}I", job, 4 + n))), job[end:]


def fits(kind, operand):
    """The operand keeps its row of the grammar."""
    low, count = operand & 0xFFFF, operand >> 16
    if kind == 1:
        return count == BUILT_IN[low] if low < len(BUILT_IN) else 16 <= low <= 1023 and count <= 4
    if kind == 2:
        return count <= 4
    if kind == 6:
        return operand <= 4
    return kind > 6 or operand == 0


class Entries:
    """Entries read from the front to text. Each is tested when it is read: 5, 3, 4, 6, 7."""

    def __init__(self, rows):
        self.rows = rows
        self.at = 0
        self.calls = []
        self.formals = []

    def entry(self, kinds):
        at = self.at
        if at == len(self.rows):
            raise Declined(5, at)
        kind, operand = self.rows[at]
        if kind not in kinds:
            raise Declined(3, at)
        if not fits(kind, operand):
            raise Declined(4, at)
        self.at += 1
        return kind, operand

    def parameter(self, scope):
        at = self.at
        kind, operand = self.entry((7, 8))
        if kind == 8:
            return str(operand - (operand >> 31 << 32))
        if operand >= scope:
            raise Declined(7, at)
        return f"v{operand}"

    def expression(self, scope, depth):
        at = self.at
        kind, operand = self.entry(range(6))
        if depth == 25:
            raise Declined(6, at)
        if kind == 0:
            return "stop"
        if kind < 3:
            low, count = operand & 0xFFFF, operand >> 16
            if kind == 2:
                self.calls.append((at, low, count))
            return f"{' sd'[kind]}{low}({','.join(self.parameter(scope) for _ in range(count))})"
        if kind > 3 and scope == 8:
            raise Declined(7, at)
        f = self.expression(scope + (kind == 5), depth + 1)
        g = self.expression(scope + (kind == 4), depth + 1)
        return f"({f}{JOINS[kind].format(scope)}{g})"

    def definition(self, number):
        _, formals = self.entry((6,))
        self.formals.append(formals)
        return f"d{number}/{formals}={self.expression(formals, 1)}\n"


def text_of_entries(d, rows):
    if d > DEFINITIONS or not 1 <= len(rows) <= ENTRIES:
        raise Declined(2, 0)
    entries = Entries(rows)
    text = "orc\n" + "".join(entries.definition(number) for number in range(d))
    text += f"goal={entries.expression(0, 1)}\n"
    if entries.at < len(rows):
        raise Declined(5, entries.at)
    for at, called, count in entries.calls:
        if entries.formals[called:called + 1] != [count]:
            raise Declined(8, at)
    return text


def text_of(job):
    """The text of a job's table, and what follows the table."""
    d, rows, rest = split(job)
    return text_of_entries(d, rows).encode(), rest


class Text:
    """A text read from the front to entries.

    The number of `(f<v1<g)` stands behind f, in which it is in scope: until it is read, f may have one variable more in scope than the
    bracket. So `spans` has, for each side that is open, outermost first, the least and the greatest number that may be in scope there, and
    the least and the greatest by which it may exceed the one before."""

    def __init__(self, text):
        self.text = text
        self.at = 0
        self.rows = []
        self.places = []
        self.spans = []

    def add(self, place, row):
        """An entry, and where it begins. The row of one whose end is not read yet is set later."""
        self.rows.append(row)
        self.places.append(place)

    def take(self, *choices):
        """The choice that comes next. None of them begins another."""
        start = self.at
        while True:
            so_far = self.text[start:self.at]
            if so_far in choices:
                return so_far
            if not any(choice.startswith(self.text[start:self.at + 1]) for choice in choices) or self.at == len(self.text):
                raise Outside(self.at)
            self.at += 1

    def number(self, most, first=b"0123456789"):
        """A number up to `most`, without leading zeros."""
        value = 0
        digits = first
        start = self.at
        while self.at < len(self.text) and self.text[self.at] in digits and 10 * value + self.text[self.at] - 48 <= most:
            value = 10 * value + self.text[self.at] - 48
            self.at += 1
            digits = b"0123456789" if value else b""
        follows = self.text[self.at:self.at + 1]
        if self.at == start or follows.isdigit():
            raise Outside(self.at)
        return value

    def parameters(self):
        """Parameters up to the closing bracket; how many there were."""
        self.take(b"(")
        count = 0
        begins = [b"v", b"-", *(b"%d" % digit for digit in range(10))]
        ends = [b")"]
        while True:
            begin = self.take(*begins, *ends) if count == 0 else self.take(b",", b")")
            if begin == b")":
                return count
            if begin == b",":
                begin = self.take(*begins)
            start = self.at - 1
            if begin == b"v":
                self.add(start, (7, self.number(0xFFFFFFFF)))
            elif begin == b"-":
                self.add(start, (8, -self.number(0x80000000, b"123456789")))
            else:
                self.at = start
                self.add(start, (8, self.number(0x7FFFFFFF)))
            count += 1

    def narrow(self, low, high):
        """The innermost open side has `low` to `high` in scope; those around it follow."""
        for side in reversed(self.spans):
            side[0], side[1] = max(side[0], low), min(side[1], high)
            low, high = side[0] - side[3], side[1] - side[2]

    def side(self, low, high, least, greatest, depth):
        """One side of a bracket; what may be in scope there, once it is read."""
        self.spans.append([low, high, least, greatest])
        self.expression(depth + 1)
        return self.spans.pop()[:2]

    def join(self, low, high, f_low, f_high):
        """What stands between the sides of a bracket: kind, and what may be in scope at the bracket."""
        same = range(max(low, f_low), min(high, f_high) + 1)
        less = range(max(low, f_low - 1), min(high, f_high - 1) + 1)
        choices = {b"|": (3, same[0], same[-1])} if same else {}
        choices.update({b">v%d>" % k: (4, k, k) for k in same})
        choices.update({b"<v%d<" % k: (5, k, k) for k in less})
        return choices[self.take(*choices)]

    def bracket(self, depth):
        row = len(self.rows)
        self.add(self.at - 1, None)
        low, high = self.spans[-1][:2]
        f_low, f_high = self.side(low, high + 1, 0, 1, depth)
        low, high = self.spans[-1][:2]
        kind, low, high = self.join(low, high, f_low, f_high)
        self.narrow(low, high)
        self.rows[row] = (kind, 0)
        more = int(kind == 4)
        g_low, g_high = self.side(low + more, high + more, more, more, depth)
        self.narrow(g_low - more, g_high - more)
        self.take(b")")

    def expression(self, depth):
        start = self.at
        begins = [b"stop", *(b"%c%d" % (letter, digit) for letter in b"sd" for digit in range(10))]
        begin = self.take(*begins, *([b"("] if depth < 24 else []))
        if begin == b"stop":
            self.add(start, (0, 0))
        elif begin == b"(":
            self.bracket(depth)
        else:
            self.at -= 1
            row = len(self.rows)
            number = self.number(0xFFFF)
            self.add(start, None)
            self.rows[row] = (1 if begin[:1] == b"s" else 2, number | self.parameters() << 16)

    def body(self, formals):
        self.spans = [[formals, formals, 0, 0]]
        self.expression(1)
        self.take(b"\n")

    def whole(self):
        """The number of definitions."""
        self.take(b"orc\n")
        d = 0
        start = self.at
        while self.take(b"d%d/" % d, b"goal=") != b"goal=":
            formals = self.number(0xFFFFFFFF)
            self.take(b"=")
            self.add(start, (6, formals))
            self.body(formals)
            d += 1
            start = self.at
        self.body(0)
        if self.at < len(self.text):
            raise Outside(self.at)
        return d

    def place(self, number, entry):
        """Where a declined entry begins; with 2 the first definition or entry that is one too many."""
        if number == 2:
            definitions = [place for place, (kind, _) in zip(self.places, self.rows) if kind == 6]
            return min(definitions[DEFINITIONS:] + self.places[ENTRIES:])
        return self.places[entry]


def table_of(text):
    """The table of a text."""
    reader = Text(text)
    d = reader.whole()
    try:
        text_of_entries(d, [(kind, operand & 0xFFFFFFFF) for kind, operand in reader.rows])
    except Declined as declined:
        raise Declined(*declined.args, reader.place(*declined.args)) from None
    return encode(d, reader.rows)


def may_follow(before):
    """The bytes that in some text follow these, as the reader itself says."""

    def follows(byte):
        try:
            Text(before + bytes([byte])).whole()
        except Outside as outside:
            return len(before) < outside.args[0]
        return True

    return bytes(filter(follows, BYTES))


def write_out(written):
    """Bytes to standard output, at once: a write that fails raises here, and not when the program ends."""
    with open(1, "wb", closefd=False) as out:
        out.write(written)
