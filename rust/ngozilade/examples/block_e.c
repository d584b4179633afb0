/* Binds document 01's block E, checks the binding, runs both runners, and shows a refusal. */
#include <stdio.h>

#include "ngozilade.h"

static const uint8_t e[64] = {
    1, 0, 0, 1, 0, 0, 0, 0,
    1, 0, 0, 2, 0, 0, 0, 0,
    2, 1, 3, 3, 1, 2, 0, 0,
    2, 1, 1, 4, 1, 0, 0, 0,
    2, 2, 4, 1, 3, 2, 0, 0,
    2, 2, 5, 5, 3, 4, 0, 0,
    2, 3, 3, 6, 1, 5, 0, 0,
    3, 0, 0, 6, 0, 0, 0, 0
};

static int refused(const char *call, uint64_t answer)
{
    if (ngozilade_number(answer) == NGOZILADE_DONE)
        return 0;
    printf("%s: refused %02u %02u %02u\n", call, (unsigned)ngozilade_number(answer),
           ngozilade_first(answer), ngozilade_second(answer));
    return 1;
}

int main(void)
{
    uint64_t answer = ngozilade_read(e, sizeof e);
    if (refused("read", answer))
        return 1;
    printf("%u values, last step %u\n", ngozilade_byte(answer, 3), ngozilade_byte(answer, 4));

    uint8_t binding[NGOZILADE_MOST_RECORDS * NGOZILADE_RECORD_BYTES];
    answer = ngozilade_bind(e, sizeof e, NGOZILADE_LEFT_EDGE, binding, sizeof binding);
    if (refused("bind", answer))
        return 1;
    size_t written = ngozilade_written(answer);

    answer = ngozilade_check(e, sizeof e, binding, written);
    if (refused("check", answer))
        return 1;
    printf("%u registers, %u units, %u buses\n", ngozilade_byte(answer, 3),
           ngozilade_byte(answer, 4), ngozilade_byte(answer, 5));

    const uint16_t incoming[2] = {5, 7};
    uint16_t outgoing[1] = {0};
    if (refused("run_block", ngozilade_run_block(e, sizeof e, incoming, 2, outgoing, 1)))
        return 1;
    printf("block: %u\n", (unsigned)outgoing[0]);

    uint16_t registers[NGOZILADE_REGISTERS] = {0};
    if (refused("run_datapath",
                ngozilade_run_datapath(e, sizeof e, binding, written, incoming, 2, outgoing, 1,
                                       registers, NGOZILADE_REGISTERS)))
        return 1;
    printf("datapath: %u\n", (unsigned)outgoing[0]);

    binding[8 * 3 + 1] = 1;
    return !refused("check", ngozilade_check(e, sizeof e, binding, written));
}
