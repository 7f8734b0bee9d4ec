"""What the scripts that write or run tests share: task files from their parts, examples, and the stored input and output of a test program."""
import os
import struct


def record(kind, body, size=None):
    return struct.pack("<HH", len(body) if size is None else size, kind) + body


def header(facts=2, procedures=1, last=2, stack=1, steps=5):
    return record(1, struct.pack("<BBBBH", facts, procedures, last, stack, steps))


def pair(positive, negative):
    return struct.pack("<QQ", positive, negative)


def action(precondition=(0, 0), effects=()):
    return record(2, pair(*precondition) + b"".join(pair(*c) + pair(*e) for c, e in effects))


def preset(procedure, line, op, p=0, q=0):
    return record(3, bytes([procedure, line, op, p, q]))


def case(start=0, goal=(0, 0)):
    return record(4, struct.pack("<Q", start) + pair(*goal))


CLOSE = record(5, b"")

# Instructions; a program is a row of them.
EMPTY, END = bytes(3), bytes([4, 0, 0])


def act(number):
    return bytes([1, number, 0])


def goto(line, fact):
    return bytes([2, line, fact])


def call(procedure):
    return bytes([3, procedure, 0])


# A condition that asks nothing; the last fact of 64.
ANY = (0, 0)
LAST_FACT = 1 << 63

# The double-click task: fact 0 is "open", fact 1 is "bib".
HEAD = header()
CLICK = action((1, 0), [((0, 0), (2, 1))])
CASES = case(1, (2, 1)) + case(2, (2, 1)) + CLOSE
DOUBLE_CLICK = HEAD + CLICK + CASES
assert len(DOUBLE_CLICK) == 122

# The bounds b 2, n 2, F 2 and one action, and under them what no line may hold and what some may: procedure, line, op, p, q.
TWO = header(2, 2, 2, 1, 5) + action()
NOT_ALLOWED = (
    ("procedure 2", (2, 0, 1, 0, 0)),
    ("line 3", (0, 3, 1, 0, 0)),
    ("end on line 3", (0, 3, 4, 0, 0)),
    ("empty", (0, 0, 0, 0, 0)),
    ("empty with a byte that is not zero", (0, 0, 0, 1, 0)),
    ("op 5", (0, 0, 5, 0, 0)),
    ("op 255", (0, 0, 255, 0, 0)),
    ("act 1 of one action", (0, 0, 1, 1, 0)),
    ("act with q 1", (0, 0, 1, 0, 1)),
    ("act on line n", (0, 2, 1, 0, 0)),
    ("goto line 3", (0, 0, 2, 3, 0)),
    ("goto on fact 2", (0, 0, 2, 0, 2)),
    ("goto on line n", (0, 2, 2, 0, 0)),
    ("call 2", (0, 0, 3, 2, 0)),
    ("call with q 1", (0, 0, 3, 0, 1)),
    ("call on line n", (0, 2, 3, 0, 0)),
    ("end on line 0", (0, 0, 4, 0, 0)),
    ("end with p 1", (0, 1, 4, 1, 0)),
    ("end with q 1", (0, 1, 4, 0, 1)),
)
ALLOWED = (
    ("act 0 on line 0", (0, 0, 1, 0, 0)),
    ("act 0 on line n - 1", (1, 1, 1, 0, 0)),
    ("goto line n on fact F - 1", (0, 1, 2, 2, 1)),
    ("call itself", (1, 0, 3, 1, 0)),
    ("end on line 1", (0, 1, 4, 0, 0)),
    ("end on line n", (1, 2, 4, 0, 0)),
)

# Effects whose conditions are tested in the state before the action: the effects, and the facts before and after.
SWAP = [((0b01, 0b10), (0b10, 0b01)), ((0b10, 0b01), (0b01, 0b10))]
CONDITIONS_FIRST = (
    ("raises 0; if 0, raises 1", [(ANY, (0b01, 0)), ((0b01, 0), (0b10, 0))], 0b00, 0b01),
    ("lowers 0; if 0, raises 1", [(ANY, (0, 0b01)), ((0b01, 0), (0b10, 0))], 0b01, 0b10),
    ("raises 0; if not 0, raises 1", [(ANY, (0b01, 0)), ((0, 0b01), (0b10, 0))], 0b00, 0b11),
    ("lowers 0; if not 0, raises 1", [(ANY, (0, 0b01)), ((0, 0b01), (0b10, 0))], 0b01, 0b00),
    ("if 0, raises 1; raises 0", [((0b01, 0), (0b10, 0)), (ANY, (0b01, 0))], 0b00, 0b01),
    ("if 0, raises 1; lowers 0", [((0b01, 0), (0b10, 0)), (ANY, (0, 0b01))], 0b01, 0b10),
    ("if not 0, raises 1; raises 0", [((0, 0b01), (0b10, 0)), (ANY, (0b01, 0))], 0b00, 0b11),
    ("if not 0, raises 1; lowers 0", [((0, 0b01), (0b10, 0)), (ANY, (0, 0b01))], 0b01, 0b00),
    ("the values of 0 and 1 change places, from 0", SWAP, 0b01, 0b10),
    ("the values of 0 and 1 change places, from 1", SWAP, 0b10, 0b01),
)

# Tasks that each of the questions 1 to 9 turns down, with number and place.
FAULTY_TASKS = (
    ("1: no byte", b"", 1, 0),
    ("1: three bytes", b"\x06\0\x01", 1, 0),
    ("1: a byte short", DOUBLE_CLICK[:121], 1, 118),
    ("2: no action", HEAD + CASES, 2, 10),
    ("2: no case", HEAD + CLICK + CLOSE, 2, 62),
    ("3: an action of 17 bytes", HEAD + record(2, bytes(17)) + CASES, 3, 10),
    ("4: a 65th action", HEAD + action() * 65 + CASES, 4, 1290),
    ("4: a 33rd case", HEAD + CLICK + case() * 33 + CLOSE, 4, 958),
    ("5: n 32", header(last=32) + CLICK + CASES, 5, 0),
    ("5: S 0", header(steps=0) + CLICK + CASES, 5, 0),
    ("6: F 63 with bit 63 used", header(63) + action((LAST_FACT, 0)) + CASES, 6, 10),
    ("6: one effect raises and lowers a fact", HEAD + action(ANY, [(ANY, (1, 1))]) + CASES, 6, 10),
    ("7: a preset end on line 0", HEAD + CLICK + preset(0, 0, 4) + CASES, 7, 62),
    ("8: a line preset twice", HEAD + CLICK + preset(0, 0, 2, 2, 0) * 2 + CASES, 8, 71),
    ("9: a byte more", DOUBLE_CLICK + b"\0", 9, 122),
)


def largest(goal):
    """A task of the largest sizes: every line is preset, the last of each procedure an end and the others goto(31, 63)."""
    effect = ((1, LAST_FACT), (1 << 62, 2))
    lines = [preset(j, i, *(END if i == 31 else goto(31, 63))) for j in range(8) for i in range(32)]
    bounds, actions = header(64, 8, 31, 16, 4096), action((1, 2), [effect] * 8) * 64
    return bounds + actions + b"".join(lines) + case(0xFFFF, goal) * 32 + CLOSE


stdin, stdout = bytearray(), bytearray()


def ask(kind, body, answer):
    """A request to the test program, and what it is to write."""
    stdin.extend(record(kind, body))
    stdout.extend(answer.encode())


def say(text):
    """Text that the program writes as it is."""
    ask(0, text.encode(), text)


def store(script):
    """Writes stdin and stdout beside a script."""
    folder = os.path.dirname(os.path.abspath(script))
    for name, data in (("stdin", stdin), ("stdout", stdout)):
        with open(os.path.join(folder, name), "wb") as out:
            out.write(data)
