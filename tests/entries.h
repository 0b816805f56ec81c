/* What the parts of the test of every entry share: differences and counts, comparing, sheets in words, steps, sessions. The layout of
 * sheets and sessions is written here once more, from the documents and not from tools/layout.py, on purpose: a mistake in one is seen
 * in the other. */
#ifndef ENTRIES_H
#define ENTRIES_H

#include <credits.h>
#include <stddef.h>
#include <stdint.h>

/* Kinds of calls; START to CLOSE are also the kinds of a session's entries. */
enum { START, OPEN, ACT, BEGIN, FINISH, CANCEL, CLOSE, CHECK, APPLY, BOTH, CREDIT, KINDS };
enum { TEXT = 1, OTHER = 2, AMOUNT = 3 }; /* kinds of a sheet's fields */
enum { SHORT = 15, NARROW = 20, BAD_BOOK = 28, AWAITED = 30, NOT_RESERVED = 31, NUMBERS = 32 };

/* The greatest mantissa, and the next number, which is none. */
#define MOST "340282366920938463463374607431768211455"
#define ABOVE "340282366920938463463374607431768211456"

/* Where a test stands, as FILE:LINE. */
#define AS_TEXT(x) #x
#define LINE_OF(x) AS_TEXT(x)
#define AT __FILE__ ":" LINE_OF(__LINE__)

#define COUNT(cases) (sizeof(cases) / sizeof *(cases))

/* ---- differences and counts */

extern unsigned long calls, refusals, failures;

void differs(const char *at, const char *format, ...); /* ends the program at the twentieth */
void counted(uint8_t number);

/* ---- comparing: each says what differs; given_is and answer_is count the call */

void number_is(const char *at, const char *what, uint64_t got, uint64_t want);
void bytes_are(const char *at, const char *what, const void *got, const void *want, size_t n);
int same_amount(credits_amount a, credits_amount b);
void amount_is(const char *at, const char *what, credits_amount got, credits_amount want);
void given_is(const char *at, credits_given got, uint8_t number, credits_amount amount);
void text_is(const char *at, credits_text got, const char *want);
void answer_is(const char *at, credits_answer got, credits_answer want);
void book_is(const char *at, const credits_book *got, const credits_book *want);

extern const credits_amount zero;
extern const credits_book no_book;
credits_answer refused(uint8_t number, uint8_t detail);
credits_answer accepted(size_t length);

/* ---- sheets */

typedef struct { uint8_t bytes[2800]; size_t len; } sheet; /* ten texts of 257 bytes fit */
typedef struct { uint8_t name, kind; size_t len; uint8_t body[257]; } field;

/* The fields laid out as document 01 says, sound or not. */
sheet laid_out(const field *fields, size_t n);
void put_amount(field *f, credits_amount a);

/* `15/1` is (15, 1), `M/0` the greatest mantissa, `H/0` 2^64; no words are zero. */
credits_amount amount_of(const char *words);

/* A sheet in words: `1:N1` is the text N1 under name 1, `1*33` 33 letters, `7!` a value that is no string, `4#15/1` the
 * amount (15, 1). No words are no bytes; the empty string is a sheet without fields. */
sheet sheet_of(const char *words);

/* ---- buffers with a guard on each side */

enum { GUARD = 16 };

void patterned(uint8_t *space, size_t n);

/* The first `length` bytes behind the guard are `written`, and every other byte is as patterned() left it. */
void only_written(const char *at, const uint8_t *space, size_t n, const uint8_t *written, size_t length);

/* ---- books and sessions */

typedef struct { uint8_t kind, a, b, t; } step; /* as in a session: what a kind does not use is 0 */

credits_name name_of(const char *text);
credits_answer taken(credits_book *book, step s, const uint8_t *bytes, size_t len);

typedef struct { uint8_t bytes[40000]; size_t len, entries; } session;

void begin_session(session *s, size_t entries);
void add_entry(session *s, step x, const uint8_t *body, size_t len);
void run_is_bad(const char *at, const credits_run *run);

/* ---- the random part */

void random_calls(uint64_t seed);

#endif
