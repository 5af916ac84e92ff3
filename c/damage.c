/*
 * damage.c: makes calls over llobatelh.h with whatever it is told to hand over: damaged books above all. It reads records on standard
 * input, makes the call of each, and writes what the call said and all that was lent as it is afterwards. It judges nothing:
 * oracle/src/damage makes the records, and compares. tools/damaged-books runs the two together.
 *
 * A record is words of 64 bits, as `struct record` has them. Where the first word is 0, the lent memory follows: what it was is written
 * before the new bytes are taken.
 */
#include "io.h"
#include "llobatelh.h"

#define MEMORY_BYTES 65600 /* more than can be lent */
#define OUT_BYTES 2888     /* more than the longest report; oracle/src/damage/case.rs has the same number */

enum { MEMORY, LOOKUP, STE_PART, OPEN, ASK, NOTICE, REPORT, IS_RECORDED };

/* What is handed over, and then what is lent: the part that is written back. */
static struct record {
    uint64_t call;
    uint64_t strtab_base;
    uint64_t base;
    uint64_t length; /* of the memory that is lent; for `open`, the length */
    uint64_t stream;
    uint64_t given;
    uint64_t substream;
    uint64_t number; /* open: the slots. notice: the start. is_recorded: the event */
    uint64_t size;   /* notice: the size */
    uint64_t out_length;
    struct lent {
        uint64_t registers[LLOBATELH_REGISTERS];
        uint64_t book[LLOBATELH_BOOK_WORDS];
        uint64_t answer[LLOBATELH_ANSWER_WORDS];
        uint64_t length[1];
        uint8_t out[OUT_BYTES];
    } lent;
} record;

/* The memory starts at an odd place: bytes need no alignment. */
static uint8_t bytes[1 + MEMORY_BYTES];
static uint8_t *const memory = bytes + 1;

static uint64_t call(uint32_t *registers)
{
    struct record *r = &record;
    /* A pointer whose length is 0 is not looked at. */
    const uint8_t *lent = r->length == 0 ? (const uint8_t *)0 : memory;
    uint8_t *out = r->out_length == 0 ? (uint8_t *)0 : r->lent.out;
    uint32_t stream = (uint32_t)r->stream;
    uint8_t given = (uint8_t)r->given;

    switch (r->call) {
    case LOOKUP:
        return llobatelh_lookup(registers, r->strtab_base, r->base, lent, r->length, stream, given, r->substream,
                                r->lent.answer);
    case STE_PART:
        return llobatelh_ste_part(registers, r->strtab_base, r->base, lent, r->length, stream, given, r->substream);
    case OPEN:
        return llobatelh_open(r->lent.book, registers, r->strtab_base, r->base, r->length, r->number);
    case ASK:
        return llobatelh_ask(r->lent.book, r->base, lent, r->length, stream, given, r->substream, r->lent.answer);
    case NOTICE:
        return llobatelh_notice(r->lent.book, r->number, r->size);
    case REPORT:
        return llobatelh_report(r->lent.book, out, r->out_length, r->lent.length);
    default:
        return llobatelh_is_recorded(registers, r->strtab_base, r->number);
    }
}

/* Makes the call of a record; the registers are handed over as the 32 bits that they have. */
static uint64_t made(void)
{
    uint32_t registers[LLOBATELH_REGISTERS];
    uint64_t said;
    size_t i;

    for (i = 0; i < LLOBATELH_REGISTERS; i++)
        registers[i] = (uint32_t)record.lent.registers[i];
    said = call(registers);
    for (i = 0; i < LLOBATELH_REGISTERS; i++)
        record.lent.registers[i] = registers[i];
    return said;
}

/* Reads so many bytes: 1, or 0 at the end of the input, or -1 where there are fewer. */
static int filled(void *to, size_t count)
{
    uint8_t *at = to;
    size_t have = 0;

    while (have < count) {
        long got = io_read(at + have, count - have);

        if (got <= 0)
            return got == 0 && have == 0 ? 0 : -1;
        have += (size_t)got;
    }
    return 1;
}

/* One record: 1, or 0 at the end of the input, or -1 where the input or the output fails. */
static int step(void)
{
    uint64_t said;
    int got = filled(&record.call, sizeof record.call);

    if (got <= 0)
        return got;
    if (record.call == MEMORY) {
        if (io_write(memory, MEMORY_BYTES) != 0)
            return -1;
        return filled(memory, MEMORY_BYTES) == 1 ? 1 : -1;
    }
    if (filled(&record.strtab_base, sizeof record - sizeof record.call) != 1)
        return -1;
    said = made();
    if (io_write((const uint8_t *)&said, sizeof said) != 0)
        return -1;
    return io_write((const uint8_t *)&record.lent, sizeof record.lent) == 0 ? 1 : -1;
}

int main(void)
{
    int got;

    do
        got = step();
    while (got == 1);
    return got == 0 ? 0 : 1;
}
