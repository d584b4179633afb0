"""Cases of the two runners."""
from cases.records import E, E_BOUND, Words, add, broken, case, changed, constant, heading, incoming, join, move, operation, outgoing, place

heading("the two runners on E")
powered = [9] * 80


def file_with(**registers):
    words = list(powered)
    for name, word in registers.items():
        words[int(name[1:])] = word
    return words


def both_runners(name, block, binding, given, sent, file):
    case("words", name + "-block", [0, 0, 0, len(sent), ":", *sent], block, Words(given), Words([7] * len(sent)))
    case("path", name + "-path", [0, 0, 0, len(sent), ":", *sent, ":", *file], block, binding, Words(given), Words([7] * len(sent)), Words(powered))


both_runners("e-5-7", E, E_BOUND, [5, 7], [65], file_with(r0=65, r1=60, r2=5))
both_runners("e-65535-2", E, E_BOUND, [65535, 2], [65534], file_with(r0=65534, r1=65535, r2=65535))
both_runners("empty", [], [], [], [], powered)

heading("each operation on words at the edges")
EDGES = [0, 1, 32767, 32768, 65535]
results = {
    3: lambda x, y: (x + y) % 65536,
    4: lambda x, y: (x - y) % 65536,
    5: lambda x, y: x * y % 65536,
    6: lambda x, y: x & y,
    7: lambda x, y: x | y,
    8: lambda x, y: x ^ y,
}
for code, result in results.items():
    block = join(incoming(1), incoming(2), operation(1, code, 3, 1, 2), outgoing(3))
    binding = join(place(0, 0), place(1, 1), place(2, 2, 0, 0, 1, 2))
    for x in EDGES:
        for y in EDGES:
            case("words", f"operation-{code}-{x}-{y}", [0, 0, 0, 1, ":", result(x, y)], block, Words([x, y]), Words([7]))
    for x, y in [(65535, 32767), (32768, 65535)]:
        both_runners(f"operation-{code}-{x}-{y}", block, binding, [x, y], [result(x, y)], file_with(r0=x, r1=y, r2=result(x, y)))

heading("all operations of a step read before any writes: an exchange of two names")
exchange = join(incoming(1), incoming(2), move(1, 1, 2), move(1, 2, 1), outgoing(1), outgoing(2))
exchange_bound = join(place(0, 0), place(1, 1), place(2, 0, left=0), place(3, 1, left=1))
both_runners("exchange", exchange, exchange_bound, [3, 4], [4, 3], file_with(r0=4, r1=3))

heading("a binding that breaks a rule, run through the datapath: what several ask for is 0")


def path(name, block, binding, given, sent, file):
    case("path", name, [0, 0, 0, len(sent), ":", *sent, ":", *file], block, binding, Words(given), Words([7] * len(sent)), Words(powered))


# 16: both moves of step 1 write register 0, so that it takes 0
path("16-two-writers", exchange, changed(exchange_bound, 3, 1, 0), [3, 4], [0, 0], file_with(r0=0, r1=4))
# 16: two incoming values in register 0, so that it takes 0, and nothing goes into register 1
path("16-two-incoming", exchange, join(place(0, 0), place(1, 0), place(2, 2, left=0), place(3, 3, left=1)), [3, 4], [0, 0], file_with(r0=0, r2=0, r3=0))
# 17: two sums of step 1 on unit 0, so that it gives 0
sums = join(incoming(1), incoming(2), add(1, 3, 1, 2), add(1, 4, 2, 2), outgoing(3), outgoing(4))
sums_bound = join(place(0, 0), place(1, 1), place(2, 2, 0, 0, 1, 2), place(3, 3, 1, 3, 4, 5))
path("17-kept", sums, sums_bound, [3, 4], [7, 8], file_with(r0=3, r1=4, r2=7, r3=8))
path("17-two-ask", sums, changed(sums_bound, 3, 2, 0), [3, 4], [0, 0], file_with(r0=3, r1=4, r2=0, r3=0))
# 18: bus 0 has two uses in step 1 and carries 0: the left source of the first sum and the right source of the second
path("18-shared-bus", sums, changed(sums_bound, 3, 4, 0), [3, 4], [4, 4], file_with(r0=3, r1=4, r2=4, r3=4))
# 18: left and right of one operation on one bus are two uses
path("18-left-and-right", sums, changed(sums_bound, 2, 4, 0), [3, 4], [0, 8], file_with(r0=3, r1=4, r2=0, r3=8))
# 19: the connection register 0 to unit 0, left, over two buses: every word is right all the same
twice = join(incoming(1), incoming(2), add(1, 3, 1, 2), add(2, 4, 1, 2), outgoing(3), outgoing(4))
twice_bound = join(place(0, 0), place(1, 1), place(2, 2, 0, 0, 1, 2), place(3, 3, 0, 5, 1, 4))
case("check", "19-over-two-buses", broken(19, 3, 2), twice, twice_bound)
path("19-over-two-buses-runs", twice, twice_bound, [3, 4], [7, 7], file_with(r0=3, r1=4, r2=7, r3=7))
# a register that nothing is given to keeps its word
path("power-up-stays", constant(1, 1, 513), place(0, 79, left=0), [], [], file_with(r79=513))

heading("21, 22, 23 beside the exact count; not one word changes")
keep = [":", 7, ":", *powered]
case("words", "one-word-less", [21, 0, 0, 0, ":", 7], E, Words([5]), Words([7]))
case("words", "one-word-more", [21, 0, 0, 0, ":", 7], E, Words([5, 7, 9]), Words([7]))
case("words", "no-room", [22, 0, 0, 0, ":"], E, Words([5, 7]), Words([]))
case("words", "too-much-room", [22, 0, 0, 0, ":", 7, 7], E, Words([5, 7]), Words([7, 7]))
case("words", "21-before-22", [21, 0, 0, 0, ":"], E, Words([5]), Words([]))
case("words", "the-block-first", [7, 1, 1, 0, ":"], join(incoming(1), incoming(1)), Words([]), Words([]))
case("path", "path-one-word-less", [21, 0, 0, 0, *keep], E, E_BOUND, Words([5]), Words([7]), Words(powered))
case("path", "path-no-room", [22, 0, 0, 0, ":", ":", *powered], E, E_BOUND, Words([5, 7]), Words([]), Words(powered))
case("path", "79-registers", [23, 0, 0, 0, ":", 7, ":", *powered[1:]], E, E_BOUND, Words([5, 7]), Words([7]), Words(powered[1:]))
case("path", "81-registers", [23, 0, 0, 0, ":", 7, ":", *powered, 9], E, E_BOUND, Words([5, 7]), Words([7]), Words([*powered, 9]))
case("path", "the-binding-before-21", [14, 6, 6, 0, *keep], E, changed(E_BOUND, 6, 1, 80), Words([5]), Words([7]), Words(powered))
case("path", "the-block-before-the-binding", [7, 1, 1, 0, *keep], join(incoming(1), incoming(1)), [9], Words([]), Words([7]), Words(powered))
