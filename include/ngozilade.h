/*
 * Ngozilade: blocks, bindings and datapaths, from C.
 *
 * The functions are in the archive that `rust/run test` builds, target/staticlib/libabi.a (x86-64).
 * They keep no state, allocate nothing, and take any bytes of any length: what is wrong with them comes
 * back as a number. On a refusal nothing is written.
 *
 * A pointer stands with its length right after it, in elements. It is never NULL, also where the length
 * is 0, and what is written overlaps nothing else that is handed in.
 *
 * Each answer is one word, packed lowest byte first:
 *
 *   byte            0       1      2        3          4          5
 *   read            number  first  second   values     last step  0
 *   check           number  later  earlier  registers  units      buses
 *   bind            number  first  second   0          bytes written, 16 bits
 *   run_block       number  first  second   0          words      0
 *   run_datapath    number  first  second   0          words      0
 *
 * Bytes 6 and 7 are 0. Where the number is not NGOZILADE_DONE, bytes 3 to 5 are 0.
 */
#ifndef NGOZILADE_H
#define NGOZILADE_H

#include <stddef.h>
#include <stdint.h>

#ifdef __cplusplus
extern "C" {
#endif

enum {
    NGOZILADE_RECORD_BYTES = 8,
    NGOZILADE_MOST_RECORDS = 80,
    NGOZILADE_REGISTERS = 80
};

/* Methods of ngozilade_bind. */
enum {
    NGOZILADE_LEFT_EDGE = 0,
    NGOZILADE_CLIQUE_MERGING = 1
};

/* Numbers that come back. Records are counted from 0; where none are named, first and second are 0. */
enum ngozilade_number {
    NGOZILADE_DONE = 0,               /* done */
    NGOZILADE_BLOCK_LENGTH = 1,       /* the block's length is not a multiple of 8 */
    NGOZILADE_BLOCK_RECORDS = 2,      /* the block has over 80 records */
    NGOZILADE_KIND = 3,               /* a kind is not 1, 2 or 3 (record, record) */
    NGOZILADE_ORDER = 4,              /* a kind below the one before, or a step below the operation before (record, record) */
    NGOZILADE_RANGE = 5,              /* a step, an operation or a used name is beyond its range (record, record) */
    NGOZILADE_UNUSED_BYTE = 6,        /* an unused byte is not zero (record, record) */
    NGOZILADE_TWICE = 7,              /* a name is incoming twice, outgoing twice, or written twice in a step (the later record, twice) */
    NGOZILADE_NO_VALUE = 8,           /* a name is read or sent out that has no value (record, record) */
    NGOZILADE_METHOD = 9,             /* the method is not 0 or 1 */
    NGOZILADE_OUTPUT_ROOM = 10,       /* the output has under 8 bytes a value */
    NGOZILADE_BINDING_LENGTH = 11,    /* the binding's length is not a multiple of 8 */
    NGOZILADE_BINDING_RECORDS = 12,   /* the binding has not as many records as the block has values */
    NGOZILADE_VALUE_NUMBER = 13,      /* a value number is not its place (place, place) */
    NGOZILADE_FIELD = 14,             /* a needed field is beyond its range, an unneeded one is not 255, or byte 6 or 7 is not zero (place, place) */
    /* 15 is not given. */
    NGOZILADE_REGISTER_SHARED = 16,   /* two values in one register occupy a common boundary (later, earlier) */
    NGOZILADE_UNIT_SHARED = 17,       /* two operations on one unit are of two classes or in one step (later, earlier) */
    NGOZILADE_BUS_SHARED = 18,        /* two uses in one step are on one bus (later, earlier; they may be equal) */
    NGOZILADE_CONNECTION_SPLIT = 19,  /* two uses of one connection are on two buses (later, earlier) */
    NGOZILADE_OWN_BINDING = 20,       /* the checker does not accept the allocator's own binding */
    NGOZILADE_INCOMING_WORDS = 21,    /* not as many incoming words as incoming records */
    NGOZILADE_OUTGOING_ROOM = 22,     /* not as much outgoing room as outgoing records */
    NGOZILADE_REGISTER_FILE = 23      /* the register file is not 80 words */
};

/* Judges a block. */
uint64_t ngozilade_read(const uint8_t *block, size_t block_bytes);

/* Judges a binding of a block. */
uint64_t ngozilade_check(const uint8_t *block, size_t block_bytes,
                         const uint8_t *binding, size_t binding_bytes);

/* Binds a block and writes 8 bytes a value to the front of out; the rest of out stays. */
uint64_t ngozilade_bind(const uint8_t *block, size_t block_bytes, uint8_t method,
                        uint8_t *out, size_t out_bytes);

/* Runs a block: one incoming word for each incoming record, one outgoing word for each outgoing one. */
uint64_t ngozilade_run_block(const uint8_t *block, size_t block_bytes,
                             const uint16_t *incoming, size_t incoming_words,
                             uint16_t *outgoing, size_t outgoing_words);

/* Runs a bound datapath, also one whose binding breaks rules, and leaves the final register file. */
uint64_t ngozilade_run_datapath(const uint8_t *block, size_t block_bytes,
                                const uint8_t *binding, size_t binding_bytes,
                                const uint16_t *incoming, size_t incoming_words,
                                uint16_t *outgoing, size_t outgoing_words,
                                uint16_t *registers, size_t registers_words);

/* A byte of an answer. */
static inline unsigned ngozilade_byte(uint64_t answer, unsigned place)
{
    return (unsigned)(answer >> (8 * place)) & 0xff;
}

static inline enum ngozilade_number ngozilade_number(uint64_t answer)
{
    return (enum ngozilade_number)ngozilade_byte(answer, 0);
}

/* The first record of a refusal; for ngozilade_check the later one. */
static inline unsigned ngozilade_first(uint64_t answer)
{
    return ngozilade_byte(answer, 1);
}

/* The second record of a refusal; for ngozilade_check the earlier one. */
static inline unsigned ngozilade_second(uint64_t answer)
{
    return ngozilade_byte(answer, 2);
}

/* What ngozilade_bind wrote, in bytes, and a runner in words. */
static inline size_t ngozilade_written(uint64_t answer)
{
    return (size_t)(answer >> 32) & 0xffff;
}

#ifdef __cplusplus
}
#endif

#endif
