"""Records, places and words as bytes, block E, and how a case is kept."""

INPUT, OUTPUT, NAMES = [], [], set()


def incoming(name):
    return [1, 0, 0, name, 0, 0, 0, 0]


def operation(step, code, name, left=0, right=0, literal=0):
    return [2, step, code, name, left, right, literal % 256, literal // 256]


def move(step, name, left):
    return operation(step, 1, name, left)


def constant(step, name, literal):
    return operation(step, 2, name, literal=literal)


def add(step, name, left, right):
    return operation(step, 3, name, left, right)


def outgoing(name):
    return [3, 0, 0, name, 0, 0, 0, 0]


def place(value, register, unit=255, left=255, right=255, result=255):
    return [value, register, unit, left, right, result, 0, 0]


def join(*records):
    return [byte for record in records for byte in record]


def changed(bytes_, record, byte, value):
    bytes_ = list(bytes_)
    bytes_[8 * record + byte] = value
    return bytes_


def text(bytes_):
    return "/".join(bytes(bytes_[i : i + 8]).hex() for i in range(0, len(bytes_), 8)) or "-"


class Words(list):
    """Words rather than bytes: four digits each, `/` after each four."""


def text_of(operand):
    if isinstance(operand, Words):
        return "/".join("".join(f"{w:04x}" for w in operand[i : i + 4]) for i in range(0, len(operand), 4)) or "-"
    return text(operand)


def case(command, name, expected, *files):
    assert name not in NAMES, name
    NAMES.add(name)
    INPUT.append(" ".join([command, name, *(text_of(f) for f in files)]))
    OUTPUT.append(" ".join([name, *(str(x) for x in expected)]))


def heading(words):
    INPUT.append("# " + words)


def refused(number, record=0):
    return [number, record, record, 0, 0]


def accepted(registers, units, buses):
    return [0, 0, 0, registers, units, buses]


def broken(number, later, earlier):
    return [number, later, earlier, 0, 0, 0]


E = join(
    incoming(1), incoming(2), add(1, 3, 1, 2), move(1, 4, 1), operation(2, 4, 1, 3, 2), operation(2, 5, 5, 3, 4), add(3, 6, 1, 5), outgoing(6)
)
E_BOUND = join(
    place(0, 1),
    place(1, 0),
    place(2, 1, 0, 0, 1, 2),
    place(3, 2, left=3),
    place(4, 0, 0, 0, 1, 4),
    place(5, 1, 1, 2, 3, 5),
    place(6, 0, 0, 2, 3, 4),
)
