/* Credit records for bridge nodes: amounts, check, apply and credit, the book, and sessions. Link with libcredits.a.
 * credits_sheet.h beside it builds the sheets and sessions that the calls take.
 *
 * Answers. Every call takes any bytes and ends with an acceptance (number 0) or one numbered refusal; README.md has the
 * table. A refusal leaves out and the book as they were; an accepted apply or credit writes the first `length` bytes of
 * out only.
 *
 * Slices. A slice is a pointer and a length of 64 bits, on every machine. With length 0 any pointer will do, NULL too; with
 * another length the pointer is good for so many bytes, and a book is never NULL. This is asked, not tested.
 *
 * Overlap. What a call may write (out, *book) overlaps nothing else passed to it: this too is asked, not tested. Where it
 * would, as with a sheet that stands in the book's own memory, copy the sheet out first; examples/overlap.c shows it.
 *
 * Threads and interrupts. Nothing is allocated and nothing is kept between calls: the library has no data that is written,
 * so calls share nothing but what they are given. Any number of threads may call at once, and an interrupt's handler may
 * call while a call is under way, given stack for both: a call is as interruptible as any C function. Two calls on one book
 * at once, or a call on bytes that are being written, are the caller's to keep apart.
 *
 * Machines. The archive that tools/build-library writes is for x86-64 with the System V calling convention (Linux and
 * its like). This header is for every machine on which the layouts that it asserts hold, a Cortex-M0 among them, for which
 * there is no archive yet.
 *
 * Stack. The deepest that was measured below each call on x86-64, in bytes, without the result's own memory. It is measured
 * on many inputs and not proved; docs/PERFORMANCE.md says how, and has estimates for a Cortex-M0.
 *
 *   credits_amount_read      128    credits_credit         1344    credits_book_finish       920
 *   credits_amount_compare    56    credits_book_start      152    credits_book_cancel       920
 *   credits_amount_add       112    credits_book_open      1024    credits_book_close        920
 *   credits_amount_sub       112    credits_book_act       1024    credits_session_run      5296
 *   credits_amount_text      968    credits_book_begin     1024    credits_session_listing  5312
 *   credits_check           1280
 *   credits_apply           1392
 */
#ifndef CREDITS_H
#define CREDITS_H

#include <stddef.h>
#include <stdint.h>

/* Goes up when a struct, a call or the meaning of a number changes, so that what was compiled or kept with another one no
 * longer fits. In version 1 a place had no reserved amount: no program that was compiled with it and no book that it kept
 * fits this one. */
#define CREDITS_VERSION 2

/* ---- names */

/* What an answer's number says, by the words of README.md's table. */
enum {
    CREDITS_ACCEPTED = 0,
    CREDITS_TORN_STATE = 1,   /* detail: which state */
    CREDITS_TORN_INPUT = 2,
    CREDITS_PROFILE = 3,
    CREDITS_OPERATION = 4,
    CREDITS_BORN = 5,
    CREDITS_UNBORN = 6,
    CREDITS_MISSING = 7,      /* detail: the field, as in 8 to 13 */
    CREDITS_NOT_TEXT = 8,
    CREDITS_EMPTY = 9,
    CREDITS_NOT_WHOLE = 10,   /* read alone: detail 0 */
    CREDITS_FRACTION = 11,
    CREDITS_NO_FIELD = 12,
    CREDITS_BLANK = 13,
    CREDITS_NOT_POSITIVE = 14,
    CREDITS_SHORT = 15,       /* available and requested say both amounts */
    CREDITS_OVER_MAXIMUM = 16,
    CREDITS_OVERFLOW = 17,
    CREDITS_UNDERFLOW = 18,
    CREDITS_NO_CREDIT = 19,
    CREDITS_NARROW = 20,
    CREDITS_UNDER_WAY = 21,
    CREDITS_OFF_THE_BOOK = 22,
    CREDITS_IDLE = 23,
    CREDITS_ITSELF = 24,
    CREDITS_TOO_MUCH = 25,
    CREDITS_OTHER_UNIT = 26,
    CREDITS_LONG_NAME = 27,   /* detail: the field */
    CREDITS_BAD_BOOK = 28,
    CREDITS_NOT_EMPTY = 29,
    CREDITS_AWAITED = 30,
    CREDITS_NOT_RESERVED = 31
};

/* The detail of CREDITS_TORN_STATE. Check and apply have one state, their source. */
enum { CREDITS_DETAIL_SOURCE = 1, CREDITS_DETAIL_DESTINATION = 2 };

enum { CREDITS_PROFILE_STACK = 1, CREDITS_PROFILE_BALANCE = 2, CREDITS_PROFILE_METER = 3 };

/* The operations of each profile. */
enum {
    CREDITS_STACK_CREATE = 1,
    CREDITS_STACK_CREDIT = 2,
    CREDITS_STACK_DEBIT = 3,
    CREDITS_STACK_CONSUME = 4,
    CREDITS_STACK_TRANSFER = 5,
    CREDITS_STACK_RESERVE = 6,
    CREDITS_STACK_RELEASE = 7,
    CREDITS_STACK_EXPIRE = 8,
    CREDITS_STACK_ADJUST = 9,
    CREDITS_BALANCE_CREATE = 11,
    CREDITS_BALANCE_MINT = 12,
    CREDITS_BALANCE_CREDIT = 13,
    CREDITS_BALANCE_DEBIT = 14,
    CREDITS_BALANCE_TRANSFER = 15,
    CREDITS_BALANCE_RESERVE = 16,
    CREDITS_BALANCE_RELEASE = 17,
    CREDITS_BALANCE_SPEND = 18,
    CREDITS_BALANCE_BURN = 19,
    CREDITS_BALANCE_CONVERT = 20,
    CREDITS_METER_CREATE = 21,
    CREDITS_METER_CONSUME = 22,
    CREDITS_METER_REFILL = 23,
    CREDITS_METER_SET_MAXIMUM = 24,
    CREDITS_METER_RESET = 25,
    CREDITS_METER_EXPIRE = 26
};

/* The names of a sheet's fields, which are also the details that name one. */
enum {
    CREDITS_FIELD_SUBJECT = 1,
    CREDITS_FIELD_UNIT = 2,
    CREDITS_FIELD_QUANTITY = 3,
    CREDITS_FIELD_BALANCE = 4,
    CREDITS_FIELD_REMAINING = 5,
    CREDITS_FIELD_MAXIMUM = 6,
    CREDITS_FIELD_AMOUNT = 7,
    CREDITS_FIELD_TO_SUBJECT = 8,
    CREDITS_FIELD_TO_UNIT = 9,
    CREDITS_FIELD_AUTHORIZED_BY = 10
};

/* The kinds of a sheet's fields; other is a value that is no string. */
enum { CREDITS_KIND_TEXT = 1, CREDITS_KIND_OTHER = 2, CREDITS_KIND_AMOUNT = 3 };

/* The kinds of a session's entries. */
enum {
    CREDITS_ENTRY_START = 0,
    CREDITS_ENTRY_OPEN = 1,
    CREDITS_ENTRY_ACT = 2,
    CREDITS_ENTRY_BEGIN = 3,
    CREDITS_ENTRY_FINISH = 4,
    CREDITS_ENTRY_CANCEL = 5,
    CREDITS_ENTRY_CLOSE = 6
};

/* What credits_amount_compare gives. */
enum { CREDITS_LESS = 0, CREDITS_EQUAL = 1, CREDITS_GREATER = 2 };

/* ---- sizes */

#define CREDITS_PLACES 16          /* of a book, counted from 0 */
#define CREDITS_TRANSFERS 8        /* of a book at once, counted from 0 */
#define CREDITS_NAME_MAX 32        /* bytes of a book's unit, and of a subject in it */
#define CREDITS_DIGITS_MAX 39      /* bytes of an amount's text that is read */
#define CREDITS_PRINTED_MAX 257    /* bytes of an amount's text that is printed */
#define CREDITS_TEXT_MAX 256       /* bytes of a text in a sheet */
#define CREDITS_SHEET_MAX 548      /* bytes of a state: no apply and no credit writes more */
#define CREDITS_INPUT_MAX 2621     /* bytes of an input: all ten fields, each a text of 256 bytes */
#define CREDITS_STEPS_MAX 255      /* steps of a session; its start is an entry more */
#define CREDITS_SESSION_MAX 16384  /* bytes of a session */
#define CREDITS_LISTING_MAX 4608   /* bytes that always hold a session's listing */

#ifdef __cplusplus
extern "C" {
#endif

/* ---- values */

/* A number from 0 to 2^128 - 1. */
typedef struct { uint64_t hi, lo; } credits_uint128;

/* The value mantissa / 10^scale. */
typedef struct { credits_uint128 mantissa; uint8_t scale; } credits_amount;

/* number 0 and the amount; or 10, 17 or 18 and zero. detail is always 0. */
typedef struct { uint8_t number, detail; credits_amount amount; } credits_given;

/* The first len bytes; the others are 0. */
typedef struct { uint8_t bytes[CREDITS_PRINTED_MAX]; uint16_t len; } credits_text;

/* available and requested are zero but for number 15, length but for an accepted apply or credit. */
typedef struct {
    uint8_t number, detail;
    credits_amount available, requested;
    uint16_t length;
} credits_answer;

/* The first len bytes, at most 32. */
typedef struct { uint8_t bytes[CREDITS_NAME_MAX]; uint8_t len; } credits_name;

/* What is reserved is not in the balance: act's reserve moves credits there, release moves them back, and no transfer and no
 * other operation takes of them. */
typedef struct { credits_name subject; credits_amount balance, reserved; } credits_place;

/* Credits that have left place `from` and have not reached place `to`. */
typedef struct { uint8_t from, to; credits_amount amount; } credits_transfer;

/* A book. Bit p of opened: place p is open. Bit t of pending: transfer t is under way. places and transfers say something
 * where their bit is set.
 *
 * A caller may read every field and writes none: a book is made by credits_book_start and altered by the six steps.
 *
 * To keep a book, copy its sizeof(credits_book) bytes, and back. They are of one machine and one CREDITS_VERSION: keep the
 * version beside them. The bytes between the fields are of no meaning, so equal books may differ there; compare fields. A
 * step that was cut off, as by a reset, may leave the book half altered: go back to the copy kept before it.
 *
 * Integers and arrays only: every byte pattern is a book. A step refuses by 28 (CREDITS_BAD_BOOK) a book whose total is
 * above 2^128 - 1, whose unit or an open place's subject is empty or over 32 bytes, with a scale other than 0, or with a
 * transfer under way that names a place that isn't open. The total is the balances and the reserved amounts of the open
 * places and what is under way; a scale is tested of every balance, reserved amount and transfer, of closed places and idle
 * numbers too. 28 is no checksum: a book that was altered and passes it is taken as it is. Where memory may fail, keep a
 * checksum of your own. */
typedef struct {
    credits_name unit;
    uint16_t opened;
    uint8_t pending;
    credits_place places[CREDITS_PLACES];
    credits_transfer transfers[CREDITS_TRANSFERS];
} credits_book;

typedef struct { credits_answer answer; credits_book book; } credits_started;

/* What a step of a session answered. */
typedef struct { uint8_t number, detail; } credits_step;

/* number 0, the answers of the first `count` steps (the others are zeros) and the book after them; or 2, no steps and a
 * book of zeros for a bad session. */
typedef struct {
    uint8_t number;
    uint16_t count;
    credits_step steps[CREDITS_STEPS_MAX];
    credits_book book;
} credits_run;

/* ---- calls */

/* A text that is a whole number. */
credits_given credits_amount_read(const uint8_t *text, uint64_t text_len);

/* CREDITS_LESS, CREDITS_EQUAL or CREDITS_GREATER: a beside b, by value. */
uint8_t credits_amount_compare(credits_amount a, credits_amount b);
credits_given credits_amount_add(credits_amount a, credits_amount b);
credits_given credits_amount_sub(credits_amount a, credits_amount b);

/* Equal amounts have the same text. */
credits_text credits_amount_text(credits_amount a);

/* May this operation be done? A state of no bytes is absent; an input of no bytes is torn. */
credits_answer credits_check(uint8_t profile, uint8_t operation, const uint8_t *state, uint64_t state_len,
                             const uint8_t *input, uint64_t input_len);

/* Writes the next state; CREDITS_SHEET_MAX bytes are always enough. Not a check: ask credits_check first.
 *
 * Where the check of one of these operations accepts, that is a promise:
 *   CREDITS_STACK_DEBIT, CREDITS_STACK_CONSUME, CREDITS_STACK_TRANSFER, CREDITS_STACK_RESERVE,
 *   CREDITS_BALANCE_DEBIT, CREDITS_BALANCE_TRANSFER, CREDITS_BALANCE_RESERVE, CREDITS_BALANCE_SPEND, CREDITS_BALANCE_BURN,
 *   CREDITS_BALANCE_CONVERT, CREDITS_METER_CONSUME.
 * Apply of the same profile, operation, state and input accepts, however much later, and the new quantity plus the requested
 * one is the old exactly, if the state is of the profile's kind, its subject is not empty, nor (but for the last two) its
 * unit, and out holds the sheet. The state that an apply wrote needs a check of its own: two checks of one state do not
 * promise both, one after the other. Of credits_credit nothing is promised. */
credits_answer credits_apply(uint8_t profile, uint8_t operation, const uint8_t *state, uint64_t state_len,
                             const uint8_t *input, uint64_t input_len, uint8_t *out, uint64_t out_len);

/* Writes the far end of a transfer, CREDITS_STACK_TRANSFER or CREDITS_BALANCE_TRANSFER; CREDITS_SHEET_MAX bytes are always
 * enough. */
credits_answer credits_credit(uint8_t operation, const uint8_t *source, uint64_t source_len, const uint8_t *destination,
                              uint64_t destination_len, const uint8_t *input, uint64_t input_len, uint8_t *out,
                              uint64_t out_len);

/* A fresh book of that unit; a book of zeros where refused. */
credits_started credits_book_start(const uint8_t *unit, uint64_t unit_len);

/* The steps, done in the book that is lent. Sheets are input sheets, as check takes them; act's operations are those of a
 * balance but create, transfer and convert. CREDITS_BALANCE_RESERVE moves credits from a place's balance to its reserved
 * amount and CREDITS_BALANCE_RELEASE moves them back, no more than are reserved there (31, CREDITS_NOT_RESERVED); neither
 * moves the total. A balance sheet has no reserved amount: in its check and apply reserve takes and release adds. Finish puts
 * the credits of a transfer at its destination, cancel puts them back at its source; after both the number is free again.
 * Close gives up a place that holds neither credits nor reserved ones and that no transfer under way names at either end:
 * its record is zeros then, and it may be opened again, under another subject. */
credits_answer credits_book_open(credits_book *book, uint8_t place, const uint8_t *sheet, uint64_t sheet_len);
credits_answer credits_book_act(credits_book *book, uint8_t place, uint8_t operation, const uint8_t *sheet,
                                uint64_t sheet_len);
credits_answer credits_book_begin(credits_book *book, uint8_t from, uint8_t to, uint8_t transfer, const uint8_t *sheet,
                                  uint64_t sheet_len);
credits_answer credits_book_finish(credits_book *book, uint8_t transfer);
credits_answer credits_book_cancel(credits_book *book, uint8_t transfer);
credits_answer credits_book_close(credits_book *book, uint8_t place);

/* The run of a session, from its start. */
credits_run credits_session_run(const uint8_t *session, uint64_t session_len);

/* Writes the listing of a session and gives its length; 0, and no byte is written, where out is too short.
 * CREDITS_LISTING_MAX bytes are always enough. */
uint16_t credits_session_listing(const uint8_t *session, uint64_t session_len, uint8_t *out, uint64_t out_len);

/* Equals sizeof(credits_book); where it does not, this header is not the library's. */
uint32_t credits_book_size(void);

#ifdef __cplusplus
}
#endif

/* The word of a number in README.md's table, for people to read; "unknown" for a number that is none. */
static inline const char *credits_word(uint8_t number)
{
    static const char *const words[] = {
        "accepted",    "torn state",   "torn input",   "profile",    "operation",    "born",
        "unborn",      "missing",      "not text",     "empty",      "not whole",    "fraction",
        "no field",    "blank",        "not positive", "short",      "over maximum", "overflow",
        "underflow",   "no credit",    "narrow",       "under way",  "off the book", "idle",
        "itself",      "too much",     "other unit",   "long name",  "bad book",     "not empty",
        "awaited",     "not reserved"
    };
    return number < sizeof words / sizeof *words ? words[number] : "unknown";
}

/* Check, and where it accepts, apply; what check refuses is refused so, and out stays as it was. */
static inline credits_answer credits_check_then_apply(uint8_t profile, uint8_t operation, const uint8_t *state,
                                                      uint64_t state_len, const uint8_t *input, uint64_t input_len,
                                                      uint8_t *out, uint64_t out_len)
{
    credits_answer checked = credits_check(profile, operation, state, state_len, input, input_len);
    if (checked.number != CREDITS_ACCEPTED)
        return checked;
    return credits_apply(profile, operation, state, state_len, input, input_len, out, out_len);
}

/* ---- layouts: a compiler that lays a struct out in another way does not fit the library, and stops here. C before C11 and
 * C++ before C++11 have no assertion of their own; there an array of -1 elements stops them. */

#if defined(__cplusplus) && __cplusplus >= 201103L
#define CREDITS_ASSERT_(name, holds) static_assert(holds, #name)
#elif !defined(__cplusplus) && defined(__STDC_VERSION__) && __STDC_VERSION__ >= 201112L
#define CREDITS_ASSERT_(name, holds) _Static_assert(holds, #name)
#else
#define CREDITS_ASSERT_(name, holds) typedef char credits_assert_##name[(holds) ? 1 : -1]
#endif
#define CREDITS_SIZE_(type, size) CREDITS_ASSERT_(size_of_##type, sizeof(credits_##type) == (size))
#define CREDITS_OFFSET_(type, field, at) CREDITS_ASSERT_(type##_##field, offsetof(credits_##type, field) == (at))

CREDITS_SIZE_(uint128, 16);
CREDITS_OFFSET_(uint128, hi, 0);
CREDITS_OFFSET_(uint128, lo, 8);
CREDITS_SIZE_(amount, 24);
CREDITS_OFFSET_(amount, mantissa, 0);
CREDITS_OFFSET_(amount, scale, 16);
CREDITS_SIZE_(given, 32);
CREDITS_OFFSET_(given, number, 0);
CREDITS_OFFSET_(given, detail, 1);
CREDITS_OFFSET_(given, amount, 8);
CREDITS_SIZE_(text, 260);
CREDITS_OFFSET_(text, bytes, 0);
CREDITS_OFFSET_(text, len, 258);
CREDITS_SIZE_(answer, 64);
CREDITS_OFFSET_(answer, number, 0);
CREDITS_OFFSET_(answer, detail, 1);
CREDITS_OFFSET_(answer, available, 8);
CREDITS_OFFSET_(answer, requested, 32);
CREDITS_OFFSET_(answer, length, 56);
CREDITS_SIZE_(name, 33);
CREDITS_OFFSET_(name, bytes, 0);
CREDITS_OFFSET_(name, len, 32);
CREDITS_SIZE_(place, 88);
CREDITS_OFFSET_(place, subject, 0);
CREDITS_OFFSET_(place, balance, 40);
CREDITS_OFFSET_(place, reserved, 64);
CREDITS_SIZE_(transfer, 32);
CREDITS_OFFSET_(transfer, from, 0);
CREDITS_OFFSET_(transfer, to, 1);
CREDITS_OFFSET_(transfer, amount, 8);
CREDITS_SIZE_(book, 1704);
CREDITS_OFFSET_(book, unit, 0);
CREDITS_OFFSET_(book, opened, 34);
CREDITS_OFFSET_(book, pending, 36);
CREDITS_OFFSET_(book, places, 40);
CREDITS_OFFSET_(book, transfers, 1448);
CREDITS_SIZE_(started, 1768);
CREDITS_OFFSET_(started, answer, 0);
CREDITS_OFFSET_(started, book, 64);
CREDITS_SIZE_(step, 2);
CREDITS_OFFSET_(step, number, 0);
CREDITS_OFFSET_(step, detail, 1);
CREDITS_SIZE_(run, 2224);
CREDITS_OFFSET_(run, number, 0);
CREDITS_OFFSET_(run, count, 2);
CREDITS_OFFSET_(run, steps, 4);
CREDITS_OFFSET_(run, book, 520);

#undef CREDITS_OFFSET_
#undef CREDITS_SIZE_
#undef CREDITS_ASSERT_

#endif
