/* entries.h says what each of these does. */
#include "entries.h"
#include <inttypes.h>
#include <stdarg.h>
#include <stdio.h>
#include <stdlib.h>
#include <string.h>

/* ---- differences and counts */

unsigned long calls, refusals, failures;

/* After twenty the rest would only repeat it. */
void differs(const char *at, const char *format, ...)
{
    va_list words;
    printf("%s: call %lu: ", at, calls);
    va_start(words, format);
    vprintf(format, words);
    va_end(words);
    printf("\n");
    if (++failures == 20)
        exit(1);
}

void counted(uint8_t number)
{
    calls++;
    refusals += number != 0;
}

/* ---- comparing */

const credits_amount zero;
const credits_book no_book;

void number_is(const char *at, const char *what, uint64_t got, uint64_t want)
{
    if (got != want)
        differs(at, "%s is %" PRIu64 ", not %" PRIu64, what, got, want);
}

void bytes_are(const char *at, const char *what, const void *got, const void *want, size_t n)
{
    const uint8_t *a = got, *b = want;
    size_t i = 0;
    if (n == 0 || memcmp(a, b, n) == 0)
        return;
    while (a[i] == b[i])
        i++;
    differs(at, "%s: byte %zu is %u, not %u", what, i, a[i], b[i]);
}

int same_amount(credits_amount a, credits_amount b)
{
    return a.mantissa.hi == b.mantissa.hi && a.mantissa.lo == b.mantissa.lo && a.scale == b.scale;
}

void amount_is(const char *at, const char *what, credits_amount got, credits_amount want)
{
    if (!same_amount(got, want))
        differs(at, "%s is (%" PRIu64 " * 2^64 + %" PRIu64 ", %u), not (%" PRIu64 " * 2^64 + %" PRIu64 ", %u)", what,
                got.mantissa.hi, got.mantissa.lo, got.scale, want.mantissa.hi, want.mantissa.lo, want.scale);
}

/* The whole of what read, add and sub give. */
void given_is(const char *at, credits_given got, uint8_t number, credits_amount amount)
{
    counted(got.number);
    number_is(at, "number", got.number, number);
    number_is(at, "detail", got.detail, 0);
    amount_is(at, "amount", got.amount, amount);
}

/* The text, and zeros behind it. */
void text_is(const char *at, credits_text got, const char *want)
{
    uint8_t bytes[sizeof got.bytes] = { 0 };
    memcpy(bytes, want, strlen(want));
    counted(0);
    number_is(at, "a text's length", got.len, strlen(want));
    bytes_are(at, "a text", got.bytes, bytes, sizeof bytes);
}

void answer_is(const char *at, credits_answer got, credits_answer want)
{
    counted(got.number);
    number_is(at, "number", got.number, want.number);
    number_is(at, "detail", got.detail, want.detail);
    amount_is(at, "available", got.available, want.available);
    amount_is(at, "requested", got.requested, want.requested);
    number_is(at, "length", got.length, want.length);
}

static void name_is(const char *at, const char *what, credits_name got, credits_name want)
{
    number_is(at, what, got.len, want.len);
    bytes_are(at, what, got.bytes, want.bytes, sizeof got.bytes);
}

/* Field by field: what stands in the padding is nobody's business. */
void book_is(const char *at, const credits_book *got, const credits_book *want)
{
    name_is(at, "unit", got->unit, want->unit);
    number_is(at, "opened", got->opened, want->opened);
    number_is(at, "pending", got->pending, want->pending);
    for (int p = 0; p < 16; p++) {
        name_is(at, "a subject", got->places[p].subject, want->places[p].subject);
        amount_is(at, "a balance", got->places[p].balance, want->places[p].balance);
        amount_is(at, "a reserved amount", got->places[p].reserved, want->places[p].reserved);
    }
    for (int t = 0; t < 8; t++) {
        number_is(at, "a source", got->transfers[t].from, want->transfers[t].from);
        number_is(at, "a destination", got->transfers[t].to, want->transfers[t].to);
        amount_is(at, "an amount under way", got->transfers[t].amount, want->transfers[t].amount);
    }
}

credits_answer refused(uint8_t number, uint8_t detail)
{
    credits_answer a = { number, detail, { { 0, 0 }, 0 }, { { 0, 0 }, 0 }, 0 };
    return a;
}

credits_answer accepted(size_t length)
{
    credits_answer a = refused(0, 0);
    a.length = (uint16_t)length;
    return a;
}

/* ---- sheets */

static void put16(uint8_t *at, size_t n)
{
    at[0] = (uint8_t)n;
    at[1] = (uint8_t)(n >> 8);
}

static void put64(uint8_t *at, uint64_t n)
{
    for (int i = 0; i < 8; i++)
        at[i] = (uint8_t)(n >> 8 * i);
}

sheet laid_out(const field *fields, size_t n)
{
    sheet s;
    s.len = 1 + 6 * n;
    s.bytes[0] = (uint8_t)n;
    for (size_t k = 0; k < n; k++) {
        uint8_t *entry = s.bytes + 1 + 6 * k;
        entry[0] = fields[k].name;
        entry[1] = fields[k].kind;
        put16(entry + 2, s.len);
        put16(entry + 4, fields[k].len);
        memcpy(s.bytes + s.len, fields[k].body, fields[k].len);
        s.len += fields[k].len;
    }
    return s;
}

void put_amount(field *f, credits_amount a)
{
    f->kind = AMOUNT;
    f->len = 17;
    put64(f->body, a.mantissa.lo);
    put64(f->body + 8, a.mantissa.hi);
    f->body[16] = a.scale;
}

credits_amount amount_of(const char *words)
{
    credits_amount a = zero;
    if (!words)
        return a;
    if (*words == 'M')
        a.mantissa.hi = a.mantissa.lo = UINT64_MAX;
    else if (*words == 'H')
        a.mantissa.hi = 1;
    else
        a.mantissa.lo = strtoull(words, NULL, 10);
    a.scale = (uint8_t)strtoul(strchr(words, '/') + 1, NULL, 10);
    return a;
}

static field field_of(const char *word, size_t len)
{
    field f = { 0, 0, 0, { 0 } };
    char *mark;
    f.name = (uint8_t)strtoul(word, &mark, 10);
    switch (*mark) {
    case ':':
        f.kind = TEXT;
        f.len = len - (size_t)(mark + 1 - word);
        memcpy(f.body, mark + 1, f.len);
        break;
    case '*':
        f.kind = TEXT;
        f.len = strtoul(mark + 1, NULL, 10);
        memset(f.body, 'x', f.len);
        break;
    case '#':
        put_amount(&f, amount_of(mark + 1));
        break;
    default:
        f.kind = OTHER;
    }
    return f;
}

sheet sheet_of(const char *words)
{
    field fields[10];
    size_t n = 0;
    sheet absent;
    absent.len = 0;
    if (!words)
        return absent;
    while (*words) {
        size_t len = strcspn(words, " ");
        fields[n++] = field_of(words, len);
        words += len + (words[len] == ' ');
    }
    return laid_out(fields, n);
}

/* ---- buffers: each byte of the pattern tells its place */

void patterned(uint8_t *space, size_t n)
{
    for (size_t i = 0; i < n; i++)
        space[i] = (uint8_t)(i * 7 + 165);
}

void only_written(const char *at, const uint8_t *space, size_t n, const uint8_t *written, size_t length)
{
    uint8_t want[8192];
    patterned(want, n);
    memcpy(want + GUARD, written, length);
    bytes_are(at, "the buffer, from its guard on", space, want, n);
}

/* ---- books and sessions */

credits_name name_of(const char *text)
{
    credits_name n = { { 0 }, (uint8_t)strlen(text) };
    memcpy(n.bytes, text, strlen(text));
    return n;
}

credits_answer taken(credits_book *book, step s, const uint8_t *bytes, size_t len)
{
    switch (s.kind) {
    case OPEN:
        return credits_book_open(book, s.a, bytes, len);
    case ACT:
        return credits_book_act(book, s.a, s.b, bytes, len);
    case BEGIN:
        return credits_book_begin(book, s.a, s.b, s.t, bytes, len);
    case FINISH:
        return credits_book_finish(book, s.t);
    case CANCEL:
        return credits_book_cancel(book, s.t);
    default:
        return credits_book_close(book, s.a);
    }
}

void begin_session(session *s, size_t entries)
{
    put16(s->bytes, entries);
    s->len = 2 + 8 * entries;
    s->entries = 0;
}

void add_entry(session *s, step x, const uint8_t *body, size_t len)
{
    uint8_t *entry = s->bytes + 2 + 8 * s->entries++;
    entry[0] = x.kind;
    entry[1] = x.a;
    entry[2] = x.b;
    entry[3] = x.t;
    put16(entry + 4, s->len);
    put16(entry + 6, len);
    memcpy(s->bytes + s->len, body, len);
    s->len += len;
}

/* 2, no steps, a book of zeros. */
void run_is_bad(const char *at, const credits_run *run)
{
    static const credits_step none[255];
    counted(run->number);
    number_is(at, "number", run->number, 2);
    number_is(at, "count", run->count, 0);
    bytes_are(at, "the steps", run->steps, none, sizeof none);
    book_is(at, &run->book, &no_book);
}
