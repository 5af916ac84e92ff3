/*
 * llobatelh.h: the C interface of Llobatelh, for C99 and C++ on 64-bit machines.
 *
 * Llobatelh works out what an Arm SMMUv3 decides about a stream, from its registers and the tables in memory.
 * There are seven calls. The first two look a request up; the next four keep answers in a book; the last says
 * whether an abort's event is recorded.
 *
 *     llobatelh_lookup         a new lookup: what the stream gets, and which descriptors that was read from
 *     llobatelh_ste_part       where in the lent memory the stream's STE lies
 *     llobatelh_open           opens a book: every slot is empty
 *     llobatelh_ask            asks the book: a kept answer, or a new lookup that is kept where there is room
 *     llobatelh_notice         tells the book that bytes of the tables were edited: strikes the answers read from them
 *     llobatelh_report         the book as text
 *     llobatelh_is_recorded    whether an abort's event is recorded
 *
 * What each call gives, and every byte and word that it is lent, is proved for every number that can be handed in:
 * nothing has to be checked first. A call that refuses says the refusal's number and leaves every lent byte and word as it was.
 *
 * What a caller owes, since no proof reaches into C: each pointer points at as many elements as are stated here, aligned
 * as their type asks, for the time of the call, in which nothing else changes them; what a call writes shares no byte with
 * anything else that it is lent.
 * A pointer whose length is 0 is not looked at. Nothing is kept from one call to the next but the words of a book,
 * which stay the caller's: a book may be moved and copied while no call runs. Calls on different books may run at once.
 *
 * The archive needs `memset` of its surroundings, and `memcpy` and `memmove` where the compiler puts them; no other function.
 */
#ifndef LLOBATELH_H
#define LLOBATELH_H

#include <stddef.h>
#include <stdint.h>

#ifdef __cplusplus
extern "C" {
#endif

/* A length has 64 bits. Elsewhere this line does not compile. */
typedef char llobatelh_size_has_64_bits[sizeof(size_t) == 8 ? 1 : -1];

/* ---- Limits ---- */

#define LLOBATELH_MEMORY_MOST 65536 /* bytes of lent memory */
#define LLOBATELH_SLOTS_MOST 64     /* slots of a book */
#define LLOBATELH_PIECES_MOST 4     /* descriptors that a lookup reads */
#define LLOBATELH_STE_BYTES 64      /* bytes of an STE */

/* 2,860 bytes of a report: a header of 44, and at most 44 for each slot. A buffer of so many is never refused with 8. */
#define LLOBATELH_REPORT_MOST (44 + 44 * LLOBATELH_SLOTS_MOST)

/*
 * ---- Registers ----
 *
 * Seven registers of 32 bits, as read, in an array by these indexes. STRTAB_BASE has 64 bits and stands beside them.
 * Reserved bits are not looked at.
 */

#define LLOBATELH_REGISTERS 7
#define LLOBATELH_IDR0 0
#define LLOBATELH_IDR1 1
#define LLOBATELH_IDR5 2
#define LLOBATELH_CR0 3
#define LLOBATELH_CR2 4
#define LLOBATELH_GBPA 5
#define LLOBATELH_STRTAB_BASE_CFG 6

/*
 * ---- Requests ----
 *
 * `stream` is the StreamID. `given` is 0 for a request without a SubstreamID, and any other number for one with `substream`.
 * SubstreamID 0 and no SubstreamID are different requests. Without one, `substream` is not looked at.
 */

#define LLOBATELH_WITHOUT 0
#define LLOBATELH_WITH 1

/*
 * ---- What a call says ----
 *
 * 0, or a number from 100 on: it is done. Any other number is a refusal's. Where several apply, each call says the first in the
 * order that stands with it.
 */

#define LLOBATELH_DONE 0
#define LLOBATELH_REFUSED_REGISTERS 1 /* OAS is 7, SIDSIZE above 32, or SSIDSIZE above 20 */
#define LLOBATELH_REFUSED_MEMORY 2    /* base not a multiple of 64, length above 65,536, or base + length above 2^52 */
#define LLOBATELH_REFUSED_SUBSTREAM 3 /* a SubstreamID is given and is 2^20 or more */
#define LLOBATELH_REFUSED_SLOTS 4     /* a book of 0 slots or of more than 64 */
#define LLOBATELH_REFUSED_NOTICE 5    /* a notice with start + size above 2^52 */
#define LLOBATELH_REFUSED_EXTENT 6    /* an ask's base or length is not the one that the book was opened with */
#define LLOBATELH_REFUSED_BOOK 7      /* the book is malformed: "The book" says when */
#define LLOBATELH_REFUSED_BUFFER 8    /* the report's buffer is shorter than its text */

/* What an ask says of the answer that it gives. */
#define LLOBATELH_KEPT_BEFORE 100 /* it was kept, and comes from its slot */
#define LLOBATELH_NEWLY_KEPT 101  /* a new lookup; it is kept now, in the empty slot with the lowest number */
#define LLOBATELH_NOT_KEPT 102    /* a new lookup; no slot was empty */

/*
 * ---- Answers ----
 *
 * An answer is 18 words. Words that a kind does not use are put as 0.
 */

#define LLOBATELH_ANSWER_WORDS (LLOBATELH_ANSWER_PIECES + 2 * LLOBATELH_PIECES_MOST)

#define LLOBATELH_ANSWER_KIND 0 /* one of the six below */
#define LLOBATELH_TRANSLATE 1     /* stage 1: words STE to TTB0 */
#define LLOBATELH_BYPASS 2        /* by the STE at the word STE */
#define LLOBATELH_BYPASS_GLOBAL 3 /* of every stream: the SMMU is off */
#define LLOBATELH_ABORT 4         /* with the event of the word EVENT, and for a failed fetch the address of the word WANTED */
#define LLOBATELH_QUIET 5         /* an abort with no event */
#define LLOBATELH_UNSERVED 6      /* the case of the word CASE, which these calls do not work out */

#define LLOBATELH_ANSWER_STE 1  /* translate and bypass: the STE's address */
#define LLOBATELH_ANSWER_CD 2   /* translate, to TTB0: the CD's address */
#define LLOBATELH_ANSWER_ASID 3 /* the CD's fields, as they are stored */
#define LLOBATELH_ANSWER_T0SZ 4
#define LLOBATELH_ANSWER_TG0 5
#define LLOBATELH_ANSWER_EPD0 6
#define LLOBATELH_ANSWER_IPS 7   /* the effective IPS, in bits */
#define LLOBATELH_ANSWER_TTB0 8  /* the table's address */
#define LLOBATELH_ANSWER_EVENT 1 /* abort: one of the events below */
#define LLOBATELH_ANSWER_WANTED 2 /* abort: with F_STE_FETCH or F_CD_FETCH the address of the descriptor that was to be fetched, else 0 */
#define LLOBATELH_ANSWER_CASE 1  /* unserved: one of the cases below */

/* The word WANTED is the address as it was computed: bits at or above the OAS are kept. Look first at whether the memory that was lent
   holds the whole descriptor, 8 bytes or 64 from there on: what it does not hold is not fetched, also where the SMMU itself could. */

/* The descriptors that were read, in order: how many, and then the address and the length of each; 0 past the last, but in a kept
   answer of a book whose words something else wrote ("The book"): go by the count. A fetch that faulted is not among them. */
#define LLOBATELH_ANSWER_COUNT (LLOBATELH_ANSWER_TTB0 + 1)
#define LLOBATELH_ANSWER_PIECES (LLOBATELH_ANSWER_COUNT + 1)
#define LLOBATELH_ANSWER_ADDRESS(i) (LLOBATELH_ANSWER_PIECES + 2 * (i))
#define LLOBATELH_ANSWER_LENGTH(i) (LLOBATELH_ANSWER_PIECES + 2 * (i) + 1)

/* Events. All are recorded, but C_BAD_STREAMID only if CR2.RECINVSID is 1. */
#define LLOBATELH_C_BAD_STREAMID 0x02
#define LLOBATELH_F_STE_FETCH 0x03
#define LLOBATELH_C_BAD_STE 0x04
#define LLOBATELH_F_STREAM_DISABLED 0x06
#define LLOBATELH_C_BAD_SUBSTREAMID 0x08
#define LLOBATELH_F_CD_FETCH 0x09
#define LLOBATELH_C_BAD_CD 0x0A

/* Unserved cases. */
#define LLOBATELH_STAGE_2 20      /* Config 11x */
#define LLOBATELH_VMSA_32 21      /* a CD with AA64 0 */
#define LLOBATELH_STREAM_WORLD 22 /* HYP 1, and STRW not 0 */

/*
 * ---- The book ----
 *
 * 1,227 words of the caller's. `llobatelh_open` writes them all; what they hold before does not matter to it. Words that
 * are all 0 are no book: each other call refuses them with 7.
 */

#define LLOBATELH_BOOK_WORDS (LLOBATELH_BOOK_ANSWERS + LLOBATELH_ANSWER_WORDS * LLOBATELH_SLOTS_MOST)

#define LLOBATELH_BOOK_SLOTS 0 /* the number of slots */
#define LLOBATELH_BOOK_REGISTERS 1 /* the seven registers of 32 bits, a word each, by the indexes above */
#define LLOBATELH_BOOK_STRTAB_BASE (LLOBATELH_BOOK_REGISTERS + LLOBATELH_REGISTERS) /* 8: STRTAB_BASE */
#define LLOBATELH_BOOK_BASE (LLOBATELH_BOOK_STRTAB_BASE + 1) /* 9: the lent memory's base */
#define LLOBATELH_BOOK_LENGTH (LLOBATELH_BOOK_BASE + 1) /* 10: and its length */
#define LLOBATELH_BOOK_KEYS (LLOBATELH_BOOK_LENGTH + 1) /* 11: a key for each slot */
#define LLOBATELH_BOOK_ANSWERS (LLOBATELH_BOOK_KEYS + LLOBATELH_SLOTS_MOST) /* 75: an answer for each slot */

/* Slot i, 0 to 63: its key, which is 0 where the slot is empty, and the 18 words of its answer. A key is 1 more than the request's
   word: the StreamID from bit 21 on; below it 0, or bit 20 and the SubstreamID. */
#define LLOBATELH_BOOK_KEY(i) (LLOBATELH_BOOK_KEYS + (i))
#define LLOBATELH_BOOK_ANSWER(i) (LLOBATELH_BOOK_ANSWERS + LLOBATELH_ANSWER_WORDS * (i))

/*
 * A book is malformed exactly if
 *     the number of slots is not 1 to 64; or a register's word is 2^32 or more; or the registers, or the base and the length,
 *     are refused with 1 or 2; or the key of a slot past the number is not 0; or two keys are equal and not 0;
 *     or a key that is not 0 is none of a request: 2^53 + 1 or more, or bit 20 of the request's word 0 and one below it 1;
 *     or a held slot's answer has a kind that is none; an event or a case that is not listed; an ASID of 2^16 or more, a T0SZ of 64
 *     or more, a TG0 above 3 or an EPD0 above 1; more than four pieces; or, among as many as it counts, one with address + length above 2^52.
 * So a word is refused where it has more bits than the field that it stands for; STRTAB_BASE, the addresses of an STE and a CD, the one
 * that a failed fetch wanted, TTB0 and the effective IPS are numbers of a whole word, and any may stand there. Nothing is refused for
 * being a value that no table would have given: the book does not know the tables. An empty slot's answer, words that a kind does not
 * use (WANTED too, where the event is no failed fetch's) and pieces past the count are not looked at. Of a kept answer an ask puts 0 for
 * words that its kind does not use, and the pieces past its count as the slot has them: 0, unless the caller wrote there.
 */

/* ---- Calls ---- */

/*
 * A new lookup of a request, by the registers and by the memory: `memory_length` bytes that lie at the address `base`.
 * Says 0, and puts the answer's words; or refuses with 1, 2 or 3, in this order.
 */
uint64_t llobatelh_lookup(const uint32_t registers[LLOBATELH_REGISTERS], uint64_t strtab_base, uint64_t base,
                          const uint8_t *memory, size_t memory_length, uint32_t stream, uint8_t given,
                          uint64_t substream, uint64_t answer[LLOBATELH_ANSWER_WORDS]);

/*
 * Where in the memory the STE that a request reaches starts: it is the 64 bytes from memory[that number] on, all of them
 * in the memory, whatever they hold. Says LLOBATELH_NO_PART where no STE is fetched, or where the lookup refuses.
 */
#define LLOBATELH_NO_PART (~(uint64_t)0)

uint64_t llobatelh_ste_part(const uint32_t registers[LLOBATELH_REGISTERS], uint64_t strtab_base, uint64_t base,
                            const uint8_t *memory, size_t memory_length, uint32_t stream, uint8_t given,
                            uint64_t substream);

/*
 * Opens a book of so many slots, all empty, for these registers and for a memory of that base and length.
 * Says 0, and writes every word of the book; or refuses with 1, 2 or 4, in this order.
 */
uint64_t llobatelh_open(uint64_t book[LLOBATELH_BOOK_WORDS], const uint32_t registers[LLOBATELH_REGISTERS],
                        uint64_t strtab_base, uint64_t base, uint64_t length, uint64_t slots);

/*
 * Asks a book, with the memory as it is now; the registers are the book's. While each edit of the tables has had its notice,
 * the answer is exactly that of a new lookup. Says 100, 101 or 102, and puts the answer's words; or refuses with 7, 6 or 3, in this order.
 */
uint64_t llobatelh_ask(uint64_t book[LLOBATELH_BOOK_WORDS], uint64_t base, const uint8_t *memory,
                       size_t memory_length, uint32_t stream, uint8_t given, uint64_t substream,
                       uint64_t answer[LLOBATELH_ANSWER_WORDS]);

/*
 * Tells a book that `size` bytes from the address `start` on were edited. Every kept answer that was read from one of them is
 * struck, and its slot is empty; no other is. Size 0 strikes nothing.
 * Says 0; or refuses with 7 or 5, in this order.
 */
uint64_t llobatelh_notice(uint64_t book[LLOBATELH_BOOK_WORDS], uint64_t start, uint64_t size);

/*
 * Writes a book as text: a header, then a line for each held slot in rising order; fields parted by a tab, each line ended by a
 * line feed, and no 0 at the end. Says 0, and puts the text's length into length[0]; bytes of `out` past it stay as they were.
 * Or refuses with 7 or 8, in this order.
 */
uint64_t llobatelh_report(const uint64_t book[LLOBATELH_BOOK_WORDS], uint8_t *out, size_t out_length,
                          uint64_t length[1]);

/* Whether these registers have an abort's event recorded: 1 or 0. */
uint64_t llobatelh_is_recorded(const uint32_t registers[LLOBATELH_REGISTERS], uint64_t strtab_base, uint64_t event);

#ifdef __cplusplus
}
#endif

#endif
