/*
 * monitor.c: runs a monitor's script over llobatelh.h, and over nothing else of Llobatelh. An example to copy from: the calls
 * stand in "Commands", and what their words mean is written out in "Answers". Start there.
 *
 * It reads a script on standard input and writes what it finds to standard output, line by line as the proved monitor
 * does. The first line that is wrong ends the run. No memory is asked for: all that a run holds is `bench` and the buffers.
 *
 * c/build builds it for the gate. On an Arm machine with a compiler of its own, after ./archive:
 *     cc -std=c99 -Iinclude c/monitor.c c/io.c target/archive/aarch64/libllobatelh.a
 */
#include "io.h"
#include "llobatelh.h"

#define LINE_MOST 4096

/* What a script acts on. All of it starts at 0: words that are all 0 are no book, and every call refuses them with 7. */
static struct {
    uint32_t registers[LLOBATELH_REGISTERS];
    uint64_t strtab_base;
    uint64_t base;
    size_t length;
    uint8_t memory[LLOBATELH_MEMORY_MOST];
    uint64_t book[LLOBATELH_BOOK_WORDS];
} bench;

/* ---- Text ---- */

static struct {
    uint8_t bytes[8192];
    size_t count;
    int failed;
} out;

static void flush(void)
{
    if (out.count > 0 && io_write(out.bytes, out.count) != 0)
        out.failed = 1;
    out.count = 0;
}

static void put_byte(uint8_t byte)
{
    if (out.count == sizeof out.bytes)
        flush();
    out.bytes[out.count++] = byte;
}

static void put(const char *text)
{
    while (*text != '\0')
        put_byte((uint8_t)*text++);
}

/* A name, and after it a number in digits of that radix, without leading zeros. */
static void put_number(const char *name, uint64_t number, unsigned radix)
{
    char digits[21];
    size_t at = sizeof digits - 1;

    digits[at] = '\0';
    do {
        digits[--at] = "0123456789abcdef"[number % radix];
        number /= radix;
    } while (number != 0);
    put(name);
    put(&digits[at]);
}

static void put_decimal(const char *name, uint64_t number)
{
    put_number(name, number, 10);
}

static void put_address(const char *name, uint64_t address)
{
    put(name);
    put_number("0x", address, 16);
}

/* The two digits of a byte. */
static void put_pair(uint64_t byte, const char *digits)
{
    put_byte((uint8_t)digits[byte / 16 % 16]);
    put_byte((uint8_t)digits[byte % 16]);
}

/* ---- Answers ---- */

/* An abort: whether its event is recorded goes by the registers that the answer was worked out with. A failed fetch has the address
   that it wanted. */
static void put_abort(const uint64_t *answer, const uint32_t *registers, uint64_t strtab_base)
{
    uint64_t event = answer[LLOBATELH_ANSWER_EVENT];

    if (llobatelh_is_recorded(registers, strtab_base, event))
        put("abort ");
    else
        put("unrecorded ");
    put_pair(event, "0123456789ABCDEF");
    if (event == LLOBATELH_F_STE_FETCH || event == LLOBATELH_F_CD_FETCH)
        put_address(" address ", answer[LLOBATELH_ANSWER_WANTED]);
}

static void put_translation(const uint64_t *answer)
{
    put_address("translate ste ", answer[LLOBATELH_ANSWER_STE]);
    put_address(" cd ", answer[LLOBATELH_ANSWER_CD]);
    put_decimal(" asid ", answer[LLOBATELH_ANSWER_ASID]);
    put_decimal(" t0sz ", answer[LLOBATELH_ANSWER_T0SZ]);
    put_decimal(" tg0 ", answer[LLOBATELH_ANSWER_TG0]);
    put_decimal(" epd0 ", answer[LLOBATELH_ANSWER_EPD0]);
    put_decimal(" ips ", answer[LLOBATELH_ANSWER_IPS]);
    put_address(" ttb0 ", answer[LLOBATELH_ANSWER_TTB0]);
}

static void put_outcome(const uint64_t *answer, const uint32_t *registers, uint64_t strtab_base)
{
    switch (answer[LLOBATELH_ANSWER_KIND]) {
    case LLOBATELH_TRANSLATE:
        put_translation(answer);
        break;
    case LLOBATELH_BYPASS:
        put_address("bypass ste ", answer[LLOBATELH_ANSWER_STE]);
        break;
    case LLOBATELH_BYPASS_GLOBAL:
        put("bypass global");
        break;
    case LLOBATELH_ABORT:
        put_abort(answer, registers, strtab_base);
        break;
    case LLOBATELH_QUIET:
        put("quiet");
        break;
    case LLOBATELH_UNSERVED:
        put_decimal("unserved ", answer[LLOBATELH_ANSWER_CASE]);
        break;
    }
}

/* The descriptors that the answer was read from. */
static void put_pieces(const uint64_t *answer)
{
    uint64_t i;

    put(" read");
    if (answer[LLOBATELH_ANSWER_COUNT] == 0)
        put(" -");
    for (i = 0; i < answer[LLOBATELH_ANSWER_COUNT]; i++) {
        put_address(" ", answer[LLOBATELH_ANSWER_ADDRESS(i)]);
        put_decimal("+", answer[LLOBATELH_ANSWER_LENGTH(i)]);
    }
    put("\n");
}

static void put_refusal(uint64_t number)
{
    put_decimal("refused ", number);
    put("\n");
}

/* ---- Wrong lines ---- */

/* In the order in which they apply: of two that a line gives, the smaller is the line's. */
enum reason {
    LINE_TOO_LONG,
    NO_SUCH_COMMAND,
    TOO_FEW_WORDS,
    TOO_MANY_WORDS,
    NO_SUCH_REGISTER,
    NOT_A_NUMBER,
    NUMBER_TOO_LARGE,
    NOT_PAIRS,
    OUTSIDE_MEMORY,
    RIGHT
};

static const char *const reasons[] = {
    "the line is too long", "no such command",         "too few words",
    "too many words",       "no such register",        "not a number",
    "the number is too large", "not pairs of hexadecimal digits", "outside the memory",
};

static enum reason first(enum reason a, enum reason b)
{
    return a < b ? a : b;
}

/* ---- Words ---- */

struct word {
    const uint8_t *at;
    size_t length;
};

/* A line's words. Those past the fourth are counted, and no command has them. */
#define WORDS_MOST 4

struct line {
    struct word word[WORDS_MOST];
    size_t count;
};

static int is_blank(uint8_t byte)
{
    return byte == ' ' || byte == '\t';
}

static void split(struct line *line, const uint8_t *bytes, size_t length)
{
    size_t at = 0;

    line->count = 0;
    for (;;) {
        size_t start;

        while (at < length && is_blank(bytes[at]))
            at++;
        if (at == length)
            return;
        start = at;
        while (at < length && !is_blank(bytes[at]))
            at++;
        if (line->count < WORDS_MOST) {
            line->word[line->count].at = bytes + start;
            line->word[line->count].length = at - start;
        }
        line->count++;
    }
}

static int is_word(struct word word, const char *name)
{
    size_t i;

    for (i = 0; i < word.length; i++)
        if (name[i] == '\0' || word.at[i] != (uint8_t)name[i])
            return 0;
    return name[i] == '\0';
}

/* A hexadecimal digit's value, and 16 for any other byte. */
static unsigned digit(uint8_t byte)
{
    if (byte >= '0' && byte <= '9')
        return (unsigned)(byte - '0');
    if (byte >= 'a' && byte <= 'f')
        return (unsigned)(byte - 'a') + 10;
    if (byte >= 'A' && byte <= 'F')
        return (unsigned)(byte - 'A') + 10;
    return 16;
}

/* The number that digits of that radix say, if it is at most `most`. */
static enum reason number_of(struct word digits, unsigned radix, uint64_t most, uint64_t *value)
{
    uint64_t sum = 0;
    int too_large = 0;
    size_t i;

    if (digits.length == 0)
        return NOT_A_NUMBER;
    for (i = 0; i < digits.length; i++) {
        unsigned d = digit(digits.at[i]);

        if (d >= radix)
            return NOT_A_NUMBER;
        if (sum > (UINT64_MAX - d) / radix)
            too_large = 1;
        sum = sum * radix + d;
    }
    if (too_large || sum > most)
        return NUMBER_TOO_LARGE;
    *value = sum;
    return RIGHT;
}

/* A number of at most `most`: decimal digits, or 0x and hexadecimal ones. Where it is none, `value` stays as it was. */
static enum reason number(struct word word, uint64_t most, uint64_t *value)
{
    if (word.length >= 2 && word.at[0] == '0' && word.at[1] == 'x') {
        word.at += 2;
        word.length -= 2;
        return number_of(word, 16, most, value);
    }
    return number_of(word, 10, most, value);
}

/* Pairs of hexadecimal digits: a byte each, one at least. */
static enum reason pairs(struct word word)
{
    size_t i;

    if (word.length == 0 || word.length % 2 != 0)
        return NOT_PAIRS;
    for (i = 0; i < word.length; i++)
        if (digit(word.at[i]) == 16)
            return NOT_PAIRS;
    return RIGHT;
}

static uint8_t pair(struct word word, size_t i)
{
    return (uint8_t)(digit(word.at[2 * i]) * 16 + digit(word.at[2 * i + 1]));
}

/* ---- Edits ---- */

/* Where in the memory an address lies, if so many bytes, so many times (once at least), lie in it from there on. Nothing is added
   or multiplied, so it is exact where a sum would pass 2^64. */
static int place(uint64_t address, uint64_t times, uint64_t bytes, uint64_t *offset)
{
    if (address < bench.base || address - bench.base > bench.length)
        return 0;
    *offset = address - bench.base;
    return bytes <= (bench.length - *offset) / times;
}

static enum reason edit(uint64_t address, uint64_t times, struct word hex)
{
    size_t bytes = hex.length / 2;
    uint64_t at, i;

    if (times == 0)
        return RIGHT;
    if (!place(address, times, bytes, &at))
        return OUTSIDE_MEMORY;
    for (i = 0; i < times * bytes; i++)
        bench.memory[at + i] = pair(hex, i % bytes);
    return RIGHT;
}

/* ---- Commands ---- */

/* A command's words are counted before it is run. It says what is wrong with its line, or RIGHT. */

static const char *const register_names[LLOBATELH_REGISTERS] = {
    [LLOBATELH_IDR0] = "idr0", [LLOBATELH_IDR1] = "idr1", [LLOBATELH_IDR5] = "idr5",
    [LLOBATELH_CR0] = "cr0",   [LLOBATELH_CR2] = "cr2",   [LLOBATELH_GBPA] = "gbpa",
    [LLOBATELH_STRTAB_BASE_CFG] = "strtab_base_cfg",
};

/* register NAME NUMBER */
static enum reason run_register(const struct line *line)
{
    enum reason wrong;
    uint64_t value;
    size_t i;

    if (is_word(line->word[1], "strtab_base"))
        return number(line->word[2], UINT64_MAX, &bench.strtab_base);
    for (i = 0; i < LLOBATELH_REGISTERS; i++)
        if (is_word(line->word[1], register_names[i]))
            break;
    if (i == LLOBATELH_REGISTERS)
        return NO_SUCH_REGISTER;
    wrong = number(line->word[2], UINT32_MAX, &value);
    if (wrong == RIGHT)
        bench.registers[i] = (uint32_t)value;
    return wrong;
}

/* memory BASE LENGTH */
static enum reason run_memory(const struct line *line)
{
    uint64_t base, length;
    enum reason wrong = first(number(line->word[1], UINT64_MAX, &base),
                              number(line->word[2], LLOBATELH_MEMORY_MOST, &length));
    size_t i;

    if (wrong != RIGHT)
        return wrong;
    bench.base = base;
    bench.length = length;
    for (i = 0; i < sizeof bench.memory; i++)
        bench.memory[i] = 0;
    return RIGHT;
}

/* write ADDRESS HEX */
static enum reason run_write(const struct line *line)
{
    uint64_t address;
    enum reason wrong = first(number(line->word[1], UINT64_MAX, &address), pairs(line->word[2]));

    return wrong != RIGHT ? wrong : edit(address, 1, line->word[2]);
}

/* fill ADDRESS COUNT HEX */
static enum reason run_fill(const struct line *line)
{
    uint64_t address, times;
    enum reason wrong = first(number(line->word[1], UINT64_MAX, &address),
                              number(line->word[2], UINT64_MAX, &times));

    wrong = first(wrong, pairs(line->word[3]));
    return wrong != RIGHT ? wrong : edit(address, times, line->word[3]);
}

/* STREAM [SUBSTREAM]. A SubstreamID that is too large is no wrong line: the call refuses it. */
struct request {
    uint32_t stream;
    uint8_t given;
    uint64_t substream;
};

static enum reason request(const struct line *line, struct request *asked)
{
    uint64_t stream = 0;
    enum reason wrong = number(line->word[1], UINT32_MAX, &stream);

    asked->given = LLOBATELH_WITHOUT;
    asked->substream = 0;
    if (line->count == 3) {
        asked->given = LLOBATELH_WITH;
        wrong = first(wrong, number(line->word[2], UINT64_MAX, &asked->substream));
    }
    asked->stream = (uint32_t)stream;
    return wrong;
}

/* lookup STREAM [SUBSTREAM] */
static enum reason run_lookup(const struct line *line)
{
    uint64_t answer[LLOBATELH_ANSWER_WORDS];
    struct request asked;
    enum reason wrong = request(line, &asked);
    uint64_t said;

    if (wrong != RIGHT)
        return wrong;
    said = llobatelh_lookup(bench.registers, bench.strtab_base, bench.base, bench.memory, bench.length,
                            asked.stream, asked.given, asked.substream, answer);
    if (said != LLOBATELH_DONE) {
        put_refusal(said);
        return RIGHT;
    }
    put_outcome(answer, bench.registers, bench.strtab_base);
    put_pieces(answer);
    return RIGHT;
}

/* part STREAM [SUBSTREAM] */
static enum reason run_part(const struct line *line)
{
    struct request asked;
    enum reason wrong = request(line, &asked);
    uint64_t at;
    size_t i;

    if (wrong != RIGHT)
        return wrong;
    at = llobatelh_ste_part(bench.registers, bench.strtab_base, bench.base, bench.memory, bench.length,
                            asked.stream, asked.given, asked.substream);
    put("part ");
    if (at == LLOBATELH_NO_PART)
        put("empty");
    else
        for (i = 0; i < LLOBATELH_STE_BYTES; i++)
            put_pair(bench.memory[at + i], "0123456789abcdef");
    put("\n");
    return RIGHT;
}

/* open SLOTS */
static enum reason run_open(const struct line *line)
{
    uint64_t slots, said;
    enum reason wrong = number(line->word[1], UINT64_MAX, &slots);

    if (wrong != RIGHT)
        return wrong;
    said = llobatelh_open(bench.book, bench.registers, bench.strtab_base, bench.base, bench.length, slots);
    if (said == LLOBATELH_DONE)
        put("opened\n");
    else
        put_refusal(said);
    return RIGHT;
}

/* An answer of the book, by the registers that the book was opened with. */
static void put_kept(const uint64_t *answer)
{
    uint32_t registers[LLOBATELH_REGISTERS];
    size_t i;

    for (i = 0; i < LLOBATELH_REGISTERS; i++)
        registers[i] = (uint32_t)bench.book[LLOBATELH_BOOK_REGISTERS + i];
    put_outcome(answer, registers, bench.book[LLOBATELH_BOOK_STRTAB_BASE]);
    put_pieces(answer);
}

/* ask STREAM [SUBSTREAM] */
static enum reason run_ask(const struct line *line)
{
    uint64_t answer[LLOBATELH_ANSWER_WORDS];
    struct request asked;
    enum reason wrong = request(line, &asked);
    uint64_t said;

    if (wrong != RIGHT)
        return wrong;
    said = llobatelh_ask(bench.book, bench.base, bench.memory, bench.length, asked.stream, asked.given,
                         asked.substream, answer);
    switch (said) {
    case LLOBATELH_KEPT_BEFORE:
        put("kept-before ");
        break;
    case LLOBATELH_NEWLY_KEPT:
        put("newly-kept ");
        break;
    case LLOBATELH_NOT_KEPT:
        put("not-kept ");
        break;
    default:
        put_refusal(said);
        return RIGHT;
    }
    put_kept(answer);
    return RIGHT;
}

/* notice START LENGTH */
static enum reason run_notice(const struct line *line)
{
    uint64_t start, size, said;
    enum reason wrong = first(number(line->word[1], UINT64_MAX, &start), number(line->word[2], UINT64_MAX, &size));

    if (wrong != RIGHT)
        return wrong;
    said = llobatelh_notice(bench.book, start, size);
    if (said == LLOBATELH_DONE)
        put("noticed\n");
    else
        put_refusal(said);
    return RIGHT;
}

/* report */
static enum reason run_report(const struct line *line)
{
    uint8_t text[LLOBATELH_REPORT_MOST];
    uint64_t length[1], said, i;

    (void)line;
    said = llobatelh_report(bench.book, text, sizeof text, length);
    if (said != LLOBATELH_DONE) {
        put_refusal(said);
        return RIGHT;
    }
    for (i = 0; i < length[0]; i++)
        put_byte(text[i]);
    return RIGHT;
}

/* ---- Lines ---- */

/* The commands, and how many words each takes, itself counted. */
static const struct {
    const char *name;
    size_t fewest, most;
    enum reason (*run)(const struct line *line);
} commands[] = {
    {"register", 3, 3, run_register}, {"memory", 3, 3, run_memory}, {"write", 3, 3, run_write},
    {"fill", 4, 4, run_fill},         {"lookup", 2, 3, run_lookup}, {"part", 2, 3, run_part},
    {"open", 2, 2, run_open},         {"ask", 2, 3, run_ask},       {"notice", 3, 3, run_notice},
    {"report", 1, 1, run_report},
};

static enum reason run_line(const uint8_t *bytes, size_t length)
{
    struct line line;
    size_t i;

    if (length > 0 && bytes[length - 1] == '\r')
        length--;
    split(&line, bytes, length);
    if (line.count == 0 || line.word[0].at[0] == '#')
        return RIGHT;
    for (i = 0; i < sizeof commands / sizeof commands[0]; i++) {
        if (!is_word(line.word[0], commands[i].name))
            continue;
        if (line.count < commands[i].fewest)
            return TOO_FEW_WORDS;
        if (line.count > commands[i].most)
            return TOO_MANY_WORDS;
        return commands[i].run(&line);
    }
    return NO_SUCH_COMMAND;
}

/* The line so far. */
static struct {
    uint8_t bytes[LINE_MOST];
    size_t length;
    uint64_t number;
} pending;

/* Runs the line that has ended. Says whether the script goes on. */
static int end_line(enum reason wrong)
{
    pending.number++;
    if (wrong == RIGHT)
        wrong = run_line(pending.bytes, pending.length);
    pending.length = 0;
    if (wrong == RIGHT)
        return 1;
    put_decimal("line ", pending.number);
    put(": ");
    put(reasons[wrong]);
    put("\n");
    return 0;
}

/* Takes the script's next byte. Says whether the script goes on. */
static int take(uint8_t byte)
{
    if (byte == '\n')
        return end_line(RIGHT);
    if (pending.length == LINE_MOST)
        return end_line(LINE_TOO_LONG);
    pending.bytes[pending.length++] = byte;
    return 1;
}

/* Reads the script and runs it. What waits is written before each reading, so that whoever types a script sees its answers. */
int main(void)
{
    static uint8_t input[65536];
    int goes_on = 1;

    while (goes_on && !out.failed) {
        long count, i;

        flush();
        count = io_read(input, sizeof input);
        if (count < 0)
            return 1;
        if (count == 0)
            break;
        for (i = 0; goes_on && i < count; i++)
            goes_on = take(input[i]);
    }
    /* the last line may lack its line feed */
    if (goes_on && !out.failed)
        (void)end_line(RIGHT);
    flush();
    return out.failed;
}
