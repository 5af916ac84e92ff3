/*
 * header_test.c: holds llobatelh.h to the archive. Nothing else compares the two: a size, an index, a number or a call that the
 * header states wrongly makes this program say which line of it fails, and end with 1.
 */
#include "io.h"
#include "llobatelh.h"

static unsigned held, failed;

static void say(const char *text)
{
    size_t length = 0;

    while (text[length] != '\0')
        length++;
    (void)io_write((const uint8_t *)text, length);
}

static void say_number(unsigned number)
{
    char digit[2] = {(char)('0' + number % 10), '\0'};

    if (number >= 10)
        say_number(number / 10);
    say(digit);
}

static void check(int fact, int line)
{
    if (fact) {
        held++;
        return;
    }
    failed++;
    say("header_test.c, line ");
    say_number((unsigned)line);
    say(": does not hold\n");
}

#define CHECK(fact) check((fact) ? 1 : 0, __LINE__)

/* ---- The tables: the figure of docs/RULES.md, and a stage 1 stream ---- */

static uint8_t memory[LLOBATELH_MEMORY_MOST + 1];
static uint32_t registers[LLOBATELH_REGISTERS];
static const uint64_t strtab_base = 0x8000;

#define S2P (1u << 0)
#define S1P (1u << 1)
#define TTF_64 (2u << 2)
#define TTF_32 (1u << 2)
#define HYP (1u << 9)
#define CD2L (1u << 19)
#define ST_LEVEL (1u << 27)
#define ABOVE_OAS ((uint64_t)1 << 55) /* the highest bit that a pointer to a descriptor has */

static void put_word(size_t at, uint64_t word)
{
    size_t i;

    for (i = 0; i < 8; i++)
        memory[at + i] = (uint8_t)(word >> (8 * i));
}

/* Every register has a number of its own. */
static void set_registers(void)
{
    registers[LLOBATELH_IDR0] = ST_LEVEL | CD2L | TTF_64 | S1P | S2P;
    registers[LLOBATELH_IDR1] = 16 | 8u << 6;
    registers[LLOBATELH_IDR5] = 5;
    registers[LLOBATELH_CR0] = 1;
    registers[LLOBATELH_CR2] = 2;
    registers[LLOBATELH_GBPA] = 0;
    registers[LLOBATELH_STRTAB_BASE_CFG] = 0x1020A;
}

/* Streams 0, 1 and 2 have STEs of their own; 768 has one of stage 1. */
static void set_tables(void)
{
    size_t ste;

    for (ste = 0; ste < 0x4000; ste += LLOBATELH_STE_BYTES)
        put_word(ste, 0x09);
    put_word(0x0000, 0x0D);
    put_word(0x0040, 0x01);
    put_word(0x0080, 0x00);
    put_word(0x8000, 0x1000 | 9);
    put_word(0x8008, 0x2F20 | 3);
    put_word(0x8010, 0);
    put_word(0x8018, 0x4000 | 1);
    put_word(0x4000, 0x400000000000C01B);
    put_word(0x4008, 0x40000000);
    put_word(0xC000, 0x20000 | 1);
    put_word(0xC008, 0xA000 | 1);
    put_word(0xA180, 0x1234020280004099);
    put_word(0xA188, 0xABCDEF0);
    put_word(0xA200, 0x80000000);
}

/* ---- Words with a guard behind them ---- */

#define UNTOUCHED 0x5A5A5A5A5A5A5A5A

static uint64_t answer[LLOBATELH_ANSWER_WORDS + 1];
static uint64_t book[LLOBATELH_BOOK_WORDS + 1];
static uint64_t before[LLOBATELH_BOOK_WORDS + 1];

static void mark(uint64_t *words, size_t count)
{
    while (count > 0)
        words[--count] = UNTOUCHED;
}

/* How many of the words are still marked. */
static size_t marked(const uint64_t *words, size_t count)
{
    size_t i, marks = 0;

    for (i = 0; i < count; i++)
        marks += words[i] == UNTOUCHED;
    return marks;
}

static void remember_book(void)
{
    size_t i;

    for (i = 0; i <= LLOBATELH_BOOK_WORDS; i++)
        before[i] = book[i];
}

static int is_as_before(void)
{
    size_t i;

    for (i = 0; i <= LLOBATELH_BOOK_WORDS; i++)
        if (book[i] != before[i])
            return 0;
    return 1;
}

static uint64_t look(uint32_t stream, uint8_t given, uint64_t substream)
{
    mark(answer, LLOBATELH_ANSWER_WORDS + 1);
    return llobatelh_lookup(registers, strtab_base, 0, memory, LLOBATELH_MEMORY_MOST, stream, given, substream,
                            answer);
}

static uint64_t ask(uint32_t stream, uint8_t given, uint64_t substream)
{
    mark(answer, LLOBATELH_ANSWER_WORDS + 1);
    return llobatelh_ask(book, 0, memory, LLOBATELH_MEMORY_MOST, stream, given, substream, answer);
}

static uint64_t open(uint64_t length, uint64_t slots)
{
    mark(book, LLOBATELH_BOOK_WORDS + 1);
    return llobatelh_open(book, registers, strtab_base, 0, length, slots);
}

/* ---- Lookups ---- */

static void check_piece(unsigned i, uint64_t address, uint64_t length, int line)
{
    check(answer[LLOBATELH_ANSWER_ADDRESS(i)] == address, line);
    check(answer[LLOBATELH_ANSWER_LENGTH(i)] == length, line);
}

/* Every word of an answer, by its index: stream 768, substream 70. */
static void translation(void)
{
    CHECK(look(768, LLOBATELH_WITH, 70) == LLOBATELH_DONE);
    CHECK(marked(answer, LLOBATELH_ANSWER_WORDS) == 0);
    CHECK(answer[LLOBATELH_ANSWER_WORDS] == UNTOUCHED);
    CHECK(answer[LLOBATELH_ANSWER_KIND] == LLOBATELH_TRANSLATE);
    CHECK(answer[LLOBATELH_ANSWER_STE] == 0x4000);
    CHECK(answer[LLOBATELH_ANSWER_CD] == 0xA180);
    CHECK(answer[LLOBATELH_ANSWER_ASID] == 0x1234);
    CHECK(answer[LLOBATELH_ANSWER_T0SZ] == 25);
    CHECK(answer[LLOBATELH_ANSWER_TG0] == 2);
    CHECK(answer[LLOBATELH_ANSWER_EPD0] == 1);
    CHECK(answer[LLOBATELH_ANSWER_IPS] == 40);
    CHECK(answer[LLOBATELH_ANSWER_TTB0] == 0xABCDEF0);
    CHECK(answer[LLOBATELH_ANSWER_COUNT] == LLOBATELH_PIECES_MOST);
    check_piece(0, 0x8018, 8, __LINE__);
    check_piece(1, 0x4000, 64, __LINE__);
    check_piece(2, 0xC008, 8, __LINE__);
    check_piece(3, 0xA180, 64, __LINE__);
    CHECK(LLOBATELH_ANSWER_LENGTH(LLOBATELH_PIECES_MOST - 1) == LLOBATELH_ANSWER_WORDS - 1);
}

/* A kind with two values at most, which stand first; the words that it does not use are 0. */
static void check_values(uint64_t kind, uint64_t value, uint64_t second, uint64_t count, int line)
{
    size_t i;

    check(marked(answer, LLOBATELH_ANSWER_WORDS) == 0, line);
    check(answer[LLOBATELH_ANSWER_KIND] == kind, line);
    check(answer[LLOBATELH_ANSWER_STE] == value, line);
    check(answer[LLOBATELH_ANSWER_CD] == second, line);
    for (i = LLOBATELH_ANSWER_ASID; i <= LLOBATELH_ANSWER_TTB0; i++)
        check(answer[i] == 0, line);
    check(answer[LLOBATELH_ANSWER_COUNT] == count, line);
    for (i = LLOBATELH_ANSWER_ADDRESS(count); i < LLOBATELH_ANSWER_WORDS; i++)
        check(answer[i] == 0, line);
}

/* A kind with one value. */
static void check_kind(uint64_t kind, uint64_t value, uint64_t count, int line)
{
    check_values(kind, value, 0, count, line);
}

/* An abort by a fetch that failed, and the address that it wanted. */
static void check_fault(uint64_t event, uint64_t wanted, uint64_t count, int line)
{
    check_values(LLOBATELH_ABORT, event, wanted, count, line);
}

static void other_kinds(void)
{
    CHECK(LLOBATELH_ANSWER_EVENT == LLOBATELH_ANSWER_STE && LLOBATELH_ANSWER_CASE == LLOBATELH_ANSWER_STE);
    CHECK(LLOBATELH_ANSWER_WANTED == LLOBATELH_ANSWER_CD);
    CHECK(look(256, LLOBATELH_WITHOUT, 70) == LLOBATELH_DONE);
    check_kind(LLOBATELH_BYPASS, 0x2F00, 2, __LINE__);
    CHECK(look(260, LLOBATELH_WITHOUT, 0) == LLOBATELH_DONE);
    check_kind(LLOBATELH_ABORT, LLOBATELH_C_BAD_STREAMID, 1, __LINE__);
    CHECK(look(1, LLOBATELH_WITHOUT, 0) == LLOBATELH_DONE);
    check_kind(LLOBATELH_QUIET, 0, 2, __LINE__);
    CHECK(look(0, LLOBATELH_WITHOUT, 0) == LLOBATELH_DONE);
    check_kind(LLOBATELH_UNSERVED, LLOBATELH_STAGE_2, 2, __LINE__);
    registers[LLOBATELH_CR0] = 0;
    CHECK(look(0, LLOBATELH_WITHOUT, 0) == LLOBATELH_DONE);
    check_kind(LLOBATELH_BYPASS_GLOBAL, 0, 0, __LINE__);
    registers[LLOBATELH_GBPA] = 1u << 20;
    CHECK(look(0, LLOBATELH_WITHOUT, 0) == LLOBATELH_DONE);
    check_kind(LLOBATELH_QUIET, 0, 0, __LINE__);
    set_registers();
}

/* An L1STD or an STE is not fetched: the answer has the address that was wanted, bits above the OAS too. */
static void failed_ste_fetches(void)
{
    /* the L1STD: no memory is lent, and then the table lies above the OAS */
    mark(answer, LLOBATELH_ANSWER_WORDS + 1);
    CHECK(llobatelh_lookup(registers, strtab_base, 0, NULL, 0, 768, LLOBATELH_WITHOUT, 0, answer) == LLOBATELH_DONE);
    check_fault(LLOBATELH_F_STE_FETCH, 0x8018, 0, __LINE__);
    CHECK(llobatelh_lookup(registers, ABOVE_OAS | strtab_base, 0, memory, LLOBATELH_MEMORY_MOST, 768, LLOBATELH_WITHOUT, 0,
                           answer) == LLOBATELH_DONE);
    check_fault(LLOBATELH_F_STE_FETCH, ABOVE_OAS | 0x8018, 0, __LINE__);
    /* the STE: right past the memory, and above the OAS */
    put_word(0x8010, 0x10000 | 1);
    CHECK(look(512, LLOBATELH_WITHOUT, 0) == LLOBATELH_DONE);
    check_fault(LLOBATELH_F_STE_FETCH, 0x10000, 1, __LINE__);
    put_word(0x8010, ABOVE_OAS | 0x4000 | 1);
    CHECK(look(512, LLOBATELH_WITHOUT, 0) == LLOBATELH_DONE);
    check_fault(LLOBATELH_F_STE_FETCH, ABOVE_OAS | 0x4000, 1, __LINE__);
    set_tables();
}

/* The same of an L1CD and a CD. */
static void failed_cd_fetches(void)
{
    /* the L1CD: right past the memory, and above the OAS */
    put_word(0x4000, 0x400000000001001B);
    CHECK(look(768, LLOBATELH_WITH, 70) == LLOBATELH_DONE);
    check_fault(LLOBATELH_F_CD_FETCH, 0x10008, 2, __LINE__);
    put_word(0x4000, ABOVE_OAS | 0x400000000000C01B);
    CHECK(look(768, LLOBATELH_WITH, 70) == LLOBATELH_DONE);
    check_fault(LLOBATELH_F_CD_FETCH, ABOVE_OAS | 0xC008, 2, __LINE__);
    set_tables();
    /* the CD: past the memory, and above the OAS */
    CHECK(look(768, LLOBATELH_WITH, 1) == LLOBATELH_DONE);
    check_fault(LLOBATELH_F_CD_FETCH, 0x20040, 3, __LINE__);
    put_word(0xC000, ABOVE_OAS | 0xA000 | 1);
    CHECK(look(768, LLOBATELH_WITH, 6) == LLOBATELH_DONE);
    check_fault(LLOBATELH_F_CD_FETCH, ABOVE_OAS | 0xA180, 3, __LINE__);
    set_tables();
}

/* The other events, whose aborts have no address, and the cases. */
static void events_and_cases(void)
{
    CHECK(look(1024, LLOBATELH_WITHOUT, 0) == LLOBATELH_DONE);
    check_kind(LLOBATELH_ABORT, LLOBATELH_C_BAD_STREAMID, 0, __LINE__);
    CHECK(look(2, LLOBATELH_WITHOUT, 0) == LLOBATELH_DONE);
    check_kind(LLOBATELH_ABORT, LLOBATELH_C_BAD_STE, 2, __LINE__);
    CHECK(look(768, LLOBATELH_WITHOUT, 70) == LLOBATELH_DONE);
    check_kind(LLOBATELH_ABORT, LLOBATELH_F_STREAM_DISABLED, 2, __LINE__);
    CHECK(look(256, LLOBATELH_WITH, 0) == LLOBATELH_DONE);
    check_kind(LLOBATELH_ABORT, LLOBATELH_C_BAD_SUBSTREAMID, 2, __LINE__);
    CHECK(look(768, 0xFF, 71) == LLOBATELH_DONE);
    check_kind(LLOBATELH_ABORT, LLOBATELH_C_BAD_CD, 4, __LINE__);
    registers[LLOBATELH_IDR0] |= TTF_32;
    CHECK(look(768, LLOBATELH_WITH, 72) == LLOBATELH_DONE);
    CHECK(answer[LLOBATELH_ANSWER_KIND] == LLOBATELH_UNSERVED && answer[LLOBATELH_ANSWER_CASE] == LLOBATELH_VMSA_32);
    registers[LLOBATELH_IDR0] |= HYP;
    CHECK(look(768, LLOBATELH_WITH, 72) == LLOBATELH_DONE);
    CHECK(answer[LLOBATELH_ANSWER_KIND] == LLOBATELH_UNSERVED);
    CHECK(answer[LLOBATELH_ANSWER_CASE] == LLOBATELH_STREAM_WORLD);
    set_registers();
}

/* A refused lookup leaves the answer's words. */
static void check_refused(uint64_t said, uint64_t number, int line)
{
    check(said == number, line);
    check(marked(answer, LLOBATELH_ANSWER_WORDS + 1) == LLOBATELH_ANSWER_WORDS + 1, line);
}

static void refused_lookups(void)
{
    mark(answer, LLOBATELH_ANSWER_WORDS + 1);
    check_refused(look(768, LLOBATELH_WITH, 1u << 20), LLOBATELH_REFUSED_SUBSTREAM, __LINE__);
    check_refused(look(768, LLOBATELH_WITH, UINT64_MAX), LLOBATELH_REFUSED_SUBSTREAM, __LINE__);
    CHECK(look(768, LLOBATELH_WITH, (1u << 20) - 1) == LLOBATELH_DONE);
    CHECK(look(768, LLOBATELH_WITHOUT, UINT64_MAX) == LLOBATELH_DONE);
    mark(answer, LLOBATELH_ANSWER_WORDS + 1);
    check_refused(llobatelh_lookup(registers, strtab_base, 0, memory, LLOBATELH_MEMORY_MOST + 1, 768, LLOBATELH_WITH,
                                   UINT64_MAX, answer),
                  LLOBATELH_REFUSED_MEMORY, __LINE__);
    check_refused(llobatelh_lookup(registers, strtab_base, 32, memory, 64, 768, LLOBATELH_WITHOUT, 0, answer),
                  LLOBATELH_REFUSED_MEMORY, __LINE__);
    registers[LLOBATELH_IDR5] = 7;
    check_refused(look(768, LLOBATELH_WITH, UINT64_MAX), LLOBATELH_REFUSED_REGISTERS, __LINE__);
    set_registers();
}

static void parts(void)
{
    uint64_t at = llobatelh_ste_part(registers, strtab_base, 0, memory, LLOBATELH_MEMORY_MOST, 256,
                                     LLOBATELH_WITHOUT, 0);

    CHECK(at == 0x2F00);
    at = llobatelh_ste_part(registers, strtab_base, 0, memory, LLOBATELH_MEMORY_MOST, 768, LLOBATELH_WITH, 70);
    CHECK(at == 0x4000 && memory[at] == 0x1B && memory[at + 7] == 0x40);
    at = llobatelh_ste_part(registers, strtab_base, 0, memory, LLOBATELH_MEMORY_MOST, 260, LLOBATELH_WITHOUT, 0);
    CHECK(at == LLOBATELH_NO_PART);
    at = llobatelh_ste_part(registers, strtab_base, 0, memory, LLOBATELH_MEMORY_MOST, 768, LLOBATELH_WITH, 1u << 20);
    CHECK(at == LLOBATELH_NO_PART);
    CHECK(llobatelh_ste_part(registers, strtab_base, 0, NULL, 0, 256, LLOBATELH_WITHOUT, 0) == LLOBATELH_NO_PART);
    /* the place is counted from the memory's start, and not from address 0 */
    at = llobatelh_ste_part(registers, 0x9000, 0x1000, memory, LLOBATELH_MEMORY_MOST, 768, LLOBATELH_WITHOUT, 0);
    CHECK(at == 0x3000);
}

/* ---- The book ---- */

static void opening(void)
{
    size_t i;

    CHECK(open(LLOBATELH_MEMORY_MOST, LLOBATELH_SLOTS_MOST) == LLOBATELH_DONE);
    CHECK(marked(book, LLOBATELH_BOOK_WORDS) == 0);
    CHECK(book[LLOBATELH_BOOK_WORDS] == UNTOUCHED);
    CHECK(book[LLOBATELH_BOOK_SLOTS] == LLOBATELH_SLOTS_MOST);
    for (i = 0; i < LLOBATELH_REGISTERS; i++)
        CHECK(book[LLOBATELH_BOOK_REGISTERS + i] == registers[i]);
    CHECK(LLOBATELH_STRTAB_BASE_CFG == LLOBATELH_REGISTERS - 1);
    CHECK(LLOBATELH_BOOK_STRTAB_BASE == LLOBATELH_BOOK_REGISTERS + LLOBATELH_REGISTERS);
    CHECK(book[LLOBATELH_BOOK_STRTAB_BASE] == strtab_base);
    CHECK(book[LLOBATELH_BOOK_BASE] == 0);
    CHECK(book[LLOBATELH_BOOK_LENGTH] == LLOBATELH_MEMORY_MOST);
    for (i = LLOBATELH_BOOK_KEY(0); i < LLOBATELH_BOOK_WORDS; i++)
        CHECK(book[i] == 0);
    CHECK(LLOBATELH_BOOK_KEY(LLOBATELH_SLOTS_MOST) == LLOBATELH_BOOK_ANSWER(0));
    CHECK(LLOBATELH_BOOK_ANSWER(LLOBATELH_SLOTS_MOST) == LLOBATELH_BOOK_WORDS);
}

static void check_unopened(uint64_t said, uint64_t number, int line)
{
    check(said == number, line);
    check(marked(book, LLOBATELH_BOOK_WORDS + 1) == LLOBATELH_BOOK_WORDS + 1, line);
}

static void refused_openings(void)
{
    check_unopened(open(LLOBATELH_MEMORY_MOST, 0), LLOBATELH_REFUSED_SLOTS, __LINE__);
    check_unopened(open(LLOBATELH_MEMORY_MOST, LLOBATELH_SLOTS_MOST + 1), LLOBATELH_REFUSED_SLOTS, __LINE__);
    check_unopened(open(LLOBATELH_MEMORY_MOST + 1, 0), LLOBATELH_REFUSED_MEMORY, __LINE__);
    registers[LLOBATELH_IDR1] = 33;
    check_unopened(open(LLOBATELH_MEMORY_MOST + 1, 0), LLOBATELH_REFUSED_REGISTERS, __LINE__);
    set_registers();
}

static void asks(void)
{
    size_t i;

    CHECK(open(LLOBATELH_MEMORY_MOST, 2) == LLOBATELH_DONE);
    CHECK(ask(256, LLOBATELH_WITHOUT, 9) == LLOBATELH_NEWLY_KEPT);
    check_kind(LLOBATELH_BYPASS, 0x2F00, 2, __LINE__);
    CHECK(answer[LLOBATELH_ANSWER_WORDS] == UNTOUCHED);
    CHECK(book[LLOBATELH_BOOK_KEY(0)] == 1 + (256u << 21));
    for (i = 0; i < LLOBATELH_ANSWER_WORDS; i++)
        CHECK(book[LLOBATELH_BOOK_ANSWER(0) + i] == answer[i]);
    remember_book();
    CHECK(ask(256, LLOBATELH_WITHOUT, 0) == LLOBATELH_KEPT_BEFORE);
    check_kind(LLOBATELH_BYPASS, 0x2F00, 2, __LINE__);
    CHECK(is_as_before());
    CHECK(ask(768, 2, 70) == LLOBATELH_NEWLY_KEPT);
    CHECK(book[LLOBATELH_BOOK_KEY(1)] == 1 + (768u << 21) + (1u << 20) + 70);
    for (i = 0; i < LLOBATELH_ANSWER_WORDS; i++)
        CHECK(book[LLOBATELH_BOOK_ANSWER(1) + i] == answer[i]);
    remember_book();
    CHECK(ask(260, LLOBATELH_WITHOUT, 0) == LLOBATELH_NOT_KEPT);
    check_kind(LLOBATELH_ABORT, LLOBATELH_C_BAD_STREAMID, 1, __LINE__);
    CHECK(is_as_before());
}

/* The book of two slots that `asks` leaves. */
static void refused_asks(void)
{
    check_refused(ask(256, LLOBATELH_WITH, 1u << 20), LLOBATELH_REFUSED_SUBSTREAM, __LINE__);
    check_refused(llobatelh_ask(book, 64, memory, LLOBATELH_MEMORY_MOST, 256, LLOBATELH_WITH, 1u << 20, answer),
                  LLOBATELH_REFUSED_EXTENT, __LINE__);
    check_refused(llobatelh_ask(book, 0, memory, 64, 256, LLOBATELH_WITHOUT, 0, answer), LLOBATELH_REFUSED_EXTENT,
                  __LINE__);
    CHECK(is_as_before());
    book[LLOBATELH_BOOK_SLOTS] = 0;
    check_refused(llobatelh_ask(book, 64, memory, 64, 256, LLOBATELH_WITH, 1u << 20, answer), LLOBATELH_REFUSED_BOOK,
                  __LINE__);
    book[LLOBATELH_BOOK_SLOTS] = 2;
    CHECK(is_as_before());
}

/* The book of two slots that `asks` leaves: slot 0 was read from 0x8008+8 and 0x2F00+64, slot 1 from 0x8018+8 and on. */
static void notices(void)
{
    CHECK(llobatelh_notice(book, 0x2F00, 0) == LLOBATELH_DONE);
    CHECK(llobatelh_notice(book, 0x2EFF, 1) == LLOBATELH_DONE);
    CHECK(llobatelh_notice(book, 0x2F40, 1) == LLOBATELH_DONE);
    CHECK(llobatelh_notice(book, (uint64_t)1 << 52, 1) == LLOBATELH_REFUSED_NOTICE);
    CHECK(llobatelh_notice(book, UINT64_MAX, UINT64_MAX) == LLOBATELH_REFUSED_NOTICE);
    CHECK(is_as_before());
    CHECK(llobatelh_notice(book, 0x2F3F, 1) == LLOBATELH_DONE);
    CHECK(book[LLOBATELH_BOOK_KEY(0)] == 0);
    before[LLOBATELH_BOOK_KEY(0)] = 0;
    CHECK(is_as_before());
    CHECK(ask(256, LLOBATELH_WITHOUT, 0) == LLOBATELH_NEWLY_KEPT);
    book[LLOBATELH_BOOK_SLOTS] = LLOBATELH_SLOTS_MOST + 1;
    remember_book();
    CHECK(llobatelh_notice(book, UINT64_MAX, UINT64_MAX) == LLOBATELH_REFUSED_BOOK);
    CHECK(is_as_before());
}

/* From its slot an abort has the address that it was kept with. */
static void kept_addresses(void)
{
    CHECK(open(LLOBATELH_MEMORY_MOST, 1) == LLOBATELH_DONE);
    CHECK(ask(768, LLOBATELH_WITH, 0) == LLOBATELH_NEWLY_KEPT);
    check_fault(LLOBATELH_F_CD_FETCH, 0x20000, 3, __LINE__);
    CHECK(book[LLOBATELH_BOOK_ANSWER(0) + LLOBATELH_ANSWER_WANTED] == 0x20000);
    remember_book();
    CHECK(ask(768, LLOBATELH_WITH, 0) == LLOBATELH_KEPT_BEFORE);
    check_fault(LLOBATELH_F_CD_FETCH, 0x20000, 3, __LINE__);
    CHECK(is_as_before());
    /* the L1CD is edited: with the notice the address is another, and nothing else of the answer is */
    put_word(0xC000, 0x30000 | 1);
    CHECK(llobatelh_notice(book, 0xC000, 8) == LLOBATELH_DONE);
    CHECK(ask(768, LLOBATELH_WITH, 0) == LLOBATELH_NEWLY_KEPT);
    check_fault(LLOBATELH_F_CD_FETCH, 0x30000, 3, __LINE__);
    before[LLOBATELH_BOOK_ANSWER(0) + LLOBATELH_ANSWER_WANTED] = 0x30000;
    CHECK(is_as_before());
    set_tables();
}

/* Whatever number the word WANTED of a kept abort has, the book is not refused. An ask gives it for a failed fetch, and else 0. */
static void check_kept_abort(uint64_t event, uint64_t wanted, int line)
{
    int is_fetch = event == LLOBATELH_F_STE_FETCH || event == LLOBATELH_F_CD_FETCH;

    book[LLOBATELH_BOOK_ANSWER(0) + LLOBATELH_ANSWER_EVENT] = event;
    book[LLOBATELH_BOOK_ANSWER(0) + LLOBATELH_ANSWER_WANTED] = wanted;
    remember_book();
    check(llobatelh_notice(book, 0, 0) == LLOBATELH_DONE, line);
    check(ask(260, LLOBATELH_WITHOUT, 0) == LLOBATELH_KEPT_BEFORE, line);
    check_values(LLOBATELH_ABORT, event, is_fetch ? wanted : 0, 1, line);
    check(is_as_before(), line);
}

static void any_address(void)
{
    static const uint64_t events[] = {
        LLOBATELH_C_BAD_STREAMID,    LLOBATELH_F_STE_FETCH, LLOBATELH_C_BAD_STE, LLOBATELH_F_STREAM_DISABLED,
        LLOBATELH_C_BAD_SUBSTREAMID, LLOBATELH_F_CD_FETCH,  LLOBATELH_C_BAD_CD,
    };
    size_t i;

    CHECK(open(LLOBATELH_MEMORY_MOST, 1) == LLOBATELH_DONE);
    CHECK(ask(260, LLOBATELH_WITHOUT, 0) == LLOBATELH_NEWLY_KEPT);
    for (i = 0; i < sizeof events / sizeof events[0]; i++) {
        check_kept_abort(events[i], 0, __LINE__);
        check_kept_abort(events[i], 1, __LINE__);
        check_kept_abort(events[i], UINT64_MAX, __LINE__);
    }
}

/* ---- The report ---- */

#define HEADING "slot\tstream\tsubstream\toutcome\tevent\taddress\n"

static uint8_t text[LLOBATELH_REPORT_MOST];
static uint64_t length[2];

static uint64_t report(size_t room)
{
    size_t i;

    for (i = 0; i < sizeof text; i++)
        text[i] = '!';
    length[0] = length[1] = UNTOUCHED;
    return llobatelh_report(book, text, room, length);
}

/* The text is this one, and every byte after it is as it was. */
static int is_text(const char *expected)
{
    size_t i;

    for (i = 0; expected[i] != '\0'; i++)
        if (text[i] != (uint8_t)expected[i])
            return 0;
    for (; i < sizeof text; i++)
        if (text[i] != '!')
            return 0;
    return 1;
}

static void reports(void)
{
    static const char expected[] = HEADING
        "0\t00000100\t-\tbypass\t-\t-\n"
        "1\t00000104\t-\tabort\t02\t-\n";

    CHECK(open(LLOBATELH_MEMORY_MOST, 2) == LLOBATELH_DONE);
    CHECK(ask(256, LLOBATELH_WITHOUT, 0) == LLOBATELH_NEWLY_KEPT);
    CHECK(ask(260, LLOBATELH_WITHOUT, 0) == LLOBATELH_NEWLY_KEPT);
    remember_book();
    CHECK(report(sizeof text) == LLOBATELH_DONE);
    CHECK(length[0] == sizeof expected - 1 && length[1] == UNTOUCHED);
    CHECK(is_text(expected));
    CHECK(report(sizeof expected - 1) == LLOBATELH_DONE && is_text(expected));
    CHECK(report(sizeof expected - 2) == LLOBATELH_REFUSED_BUFFER && is_text("") && length[0] == UNTOUCHED);
    CHECK(llobatelh_report(book, NULL, 0, length) == LLOBATELH_REFUSED_BUFFER && length[0] == UNTOUCHED);
    CHECK(is_as_before());
    book[LLOBATELH_BOOK_LENGTH] = LLOBATELH_MEMORY_MOST + 1;
    CHECK(report(0) == LLOBATELH_REFUSED_BOOK && is_text("") && length[0] == UNTOUCHED);
}

/* The last column: the address that a failed fetch wanted, whatever the number; with another event none, whatever the word has. */
static void reported_addresses(void)
{
    CHECK(open(LLOBATELH_MEMORY_MOST, 3) == LLOBATELH_DONE);
    put_word(0x8010, 0x10000 | 1);
    CHECK(ask(512, LLOBATELH_WITHOUT, 0) == LLOBATELH_NEWLY_KEPT);
    CHECK(ask(768, LLOBATELH_WITH, 0) == LLOBATELH_NEWLY_KEPT);
    CHECK(ask(260, LLOBATELH_WITHOUT, 0) == LLOBATELH_NEWLY_KEPT);
    set_tables();
    CHECK(report(sizeof text) == LLOBATELH_DONE);
    CHECK(is_text(HEADING "0\t00000200\t-\tabort\t03\t0000000000010000\n"
                          "1\t00000300\t00000\tabort\t09\t0000000000020000\n"
                          "2\t00000104\t-\tabort\t02\t-\n"));
    book[LLOBATELH_BOOK_ANSWER(0) + LLOBATELH_ANSWER_WANTED] = 0;
    book[LLOBATELH_BOOK_ANSWER(1) + LLOBATELH_ANSWER_WANTED] = UINT64_MAX;
    book[LLOBATELH_BOOK_ANSWER(2) + LLOBATELH_ANSWER_WANTED] = UINT64_MAX;
    CHECK(report(sizeof text) == LLOBATELH_DONE);
    CHECK(is_text(HEADING "0\t00000200\t-\tabort\t03\t0000000000000000\n"
                          "1\t00000300\t00000\tabort\t09\tffffffffffffffff\n"
                          "2\t00000104\t-\tabort\t02\t-\n"));
}

/* The longest report: 64 slots, each with a SubstreamID and an address. It has 2,850 bytes, since ten slots have one digit. */
static void longest_report(void)
{
    uint32_t stream;

    CHECK(LLOBATELH_REPORT_MOST == 2860 && sizeof HEADING - 1 == 44);
    CHECK(open(0, LLOBATELH_SLOTS_MOST) == LLOBATELH_DONE);
    for (stream = 0; stream < LLOBATELH_SLOTS_MOST; stream++)
        CHECK(llobatelh_ask(book, 0, NULL, 0, stream, LLOBATELH_WITH, 0xFFFFF, answer) == LLOBATELH_NEWLY_KEPT);
    CHECK(report(LLOBATELH_REPORT_MOST) == LLOBATELH_DONE);
    CHECK(length[0] == LLOBATELH_REPORT_MOST - 10);
    CHECK(report(LLOBATELH_REPORT_MOST - 10) == LLOBATELH_DONE);
    CHECK(report(LLOBATELH_REPORT_MOST - 11) == LLOBATELH_REFUSED_BUFFER);
}

/* The longest outcome goes with an event that has no address: a report of it alone is shorter by 10 for each slot. */
static void unrecorded_report(void)
{
    uint32_t stream;

    registers[LLOBATELH_CR2] = 0;
    CHECK(open(LLOBATELH_MEMORY_MOST, LLOBATELH_SLOTS_MOST) == LLOBATELH_DONE);
    for (stream = 0; stream < LLOBATELH_SLOTS_MOST; stream++)
        CHECK(ask(1024 + stream, LLOBATELH_WITH, 0xFFFFF) == LLOBATELH_NEWLY_KEPT);
    CHECK(report(LLOBATELH_REPORT_MOST) == LLOBATELH_DONE);
    CHECK(length[0] == LLOBATELH_REPORT_MOST - 10 - 10 * LLOBATELH_SLOTS_MOST);
    set_registers();
}

/* ---- Events that are recorded ---- */

static void recorded(void)
{
    CHECK(llobatelh_is_recorded(registers, strtab_base, LLOBATELH_C_BAD_STREAMID) == 1);
    CHECK(llobatelh_is_recorded(registers, strtab_base, LLOBATELH_F_STE_FETCH) == 1);
    registers[LLOBATELH_CR2] = ~2u;
    CHECK(llobatelh_is_recorded(registers, strtab_base, LLOBATELH_C_BAD_STREAMID) == 0);
    CHECK(llobatelh_is_recorded(registers, strtab_base, LLOBATELH_C_BAD_CD) == 1);
    set_registers();
}

int main(void)
{
    set_registers();
    set_tables();
    translation();
    other_kinds();
    failed_ste_fetches();
    failed_cd_fetches();
    events_and_cases();
    refused_lookups();
    parts();
    opening();
    refused_openings();
    asks();
    refused_asks();
    notices();
    kept_addresses();
    any_address();
    reports();
    reported_addresses();
    longest_report();
    unrecorded_report();
    recorded();
    say("the header: ");
    say_number(held);
    say(" facts hold, ");
    say_number(failed);
    say(" fail\n");
    return failed != 0;
}
