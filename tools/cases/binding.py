"""Cases of the allocator."""
from cases.records import E, E_BOUND, accepted, add, case, constant, heading, incoming, join, move, outgoing, place

heading("the allocator on E: left edge byte by byte, and clique merging")


def bound(name, block, method, binding):
    case("bind", name, [0, 0, 0, len(binding), ":", *binding], block, [method], [170] * len(binding))


bound("e-left-edge", E, 0, E_BOUND)
# clique merging of E's registers. Boundaries 0 to 0, 0 to 1, 1, 1, 2, 2, 3; joined where no boundary is shared:
# 0 with 2 3 4 5 6, 1 with 4 5 6, 2 and 3 with 4 5 6, 4 and 5 with 6. 0-6, 4-6 and 5-6 have most common neighbours, four: {0,6}, joined to 2 3 4 5.
# 0-2, 0-3, 0-4 and 0-5 have two: {0,2,6}, joined to 4 5. Then none has any: the first is 0-4: {0,2,4,6}, joined to none; then 1-5: {1,5}.
# Clusters by smallest member: {0,2,4,6} 0, {1,5} 1, {3} 2. Units: 2, 4 and 6 are of class A in different steps, 5 is alone.
# Connections by first use: R0 to U0 left, R1 to U0 right, U0 to R0, each in steps 1 2 3; R0 to R2 in 1; R0 to U1 left, R2 to U1 right, U1 to R1 in 2.
# So R0 to R2 is joined to each of the last three, and merges with the first of them.
merged = join(
    place(0, 0),
    place(1, 1),
    place(2, 0, 0, 0, 1, 2),
    place(3, 2, left=3),
    place(4, 0, 0, 0, 1, 2),
    place(5, 1, 1, 3, 4, 5),
    place(6, 0, 0, 0, 1, 2),
)
bound("e-merging", E, 1, merged)

heading("C11 takes two registers; refusals in order: 9, the block, 10")
c11 = join(incoming(1), constant(1, 2, 9), move(1, 3, 1), outgoing(3))
bound("c11", c11, 0, join(place(0, 0), place(1, 0, left=0), place(2, 1, left=1)))
room = [170] * 56
case("bind", "method-2", [9, 0, 0, 0, ":", *room], join(incoming(1), incoming(1)), [2], room)
case("bind", "a-bad-block", [7, 1, 1, 0, ":", *room], join(incoming(1), incoming(1)), [1], room)
case("bind", "one-byte-less", [10, 0, 0, 0, ":", *room[1:]], E, [0], room[1:])
case("bind", "one-byte-more", [0, 0, 0, 56, ":", *E_BOUND, 170], E, [0], room + [170])
case("bind", "nothing-to-write", [0, 0, 0, 0, ":"], [], [1], [])

heading("as many values alive at once as there are names: 64 take 64 registers")
crowd = join(*(incoming(n) for n in range(64)))
bound("64-alive", crowd, 0, join(*(place(v, v) for v in range(64))))

heading("004's graph of five nodes as lifetimes: each value shares a boundary with the next alone, so that 0-2 0-3 0-4 1-3 1-4 2-4 are joined")
# 004 calls these nodes 4 2 1 5 3: its clusters {1,3,4} and {2,5} are {0,2,4} and {1,3}
five = join(incoming(1), constant(1, 2, 7), move(2, 3, 1), move(3, 4, 2), move(4, 5, 3), outgoing(4))
case("occupied", "five-lifetimes", [0, 1, 1, 2, 2, 3, 3, 4, 4, 4], five)
bound("five-nodes", five, 1, join(place(0, 0), place(1, 1, left=0), place(2, 0, left=0), place(3, 1, left=0), place(4, 0, left=0)))

heading("over 200 connections: 64 sums in step 1 of one value, eight in step 2 of two registers each, by both methods")
# Registers: the values of step 1 live at boundary 1 and those of step 2 at 2, so that register i has the sum i of each; the incoming value shares register 0.
# Units: two sums share one only if they are of different steps, so that unit i has the sum i of each.
# Connections by first use: of the sum i in step 1 its left, right and result are 3i, 3i + 1 and 3i + 2; in step 2 it has its result connection again, and two
# new ones. Only a connection of step 1 alone and one of step 2 alone are joined, none with a common neighbour, so that the new ones merge one after
# another with 0, 1, 3, 4, 6, 7 and so on: with the left and right ones of the same sum. 208 connections are on 192 buses.
sums = join(incoming(0), *(add(1, i, 0, 0) for i in range(64)), *(add(2, i, i + 1, i + 1) for i in range(8)))
sum_places = [place(1 + n, n % 64, n % 64, 3 * (n % 64), 3 * (n % 64) + 1, 3 * (n % 64) + 2) for n in range(72)]
sums_bound = join(place(0, 0), *sum_places)
bound("208-connections-left-edge", sums, 0, sums_bound)
bound("208-connections-merging", sums, 1, sums_bound)
case("check", "208-connections-checked", accepted(64, 64, 192), sums, sums_bound)
