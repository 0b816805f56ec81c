/* Builds what the calls of credits.h take: input sheets, state sheets and sessions, into a caller's buffer. Header only; it
 * allocates nothing, and needs strlen, memcpy and memchr of the C library, and libcredits.a for an amount's text.
 *
 *   const credits_field asked[] = { credits_field_whole(CREDITS_FIELD_AMOUNT, 3) };
 *   uint8_t input[CREDITS_INPUT_MAX];
 *   uint64_t input_len = credits_build_input(input, sizeof input, asked, CREDITS_COUNT(asked));
 *
 * Each of the three builders gives the length of what it wrote; or 0, and no byte is written, where the buffer is too short
 * or what was given makes no sound sheet or session. So a mistake never becomes a torn sheet. Test for 0 before the bytes
 * are used: for the library no bytes are an absent state.
 *
 * The texts and sheets given stand outside the buffer that is written. */
#ifndef CREDITS_SHEET_H
#define CREDITS_SHEET_H

#include "credits.h"
#include <string.h>

#define CREDITS_COUNT(array) (sizeof(array) / sizeof *(array))

/* ---- fields */

/* One field, as the functions below make it. The text is not copied: it is there until the sheet is built. */
typedef struct {
    uint8_t name, kind;
    const uint8_t *text;
    uint64_t text_len;
    credits_amount amount;
} credits_field;

/* A text of any bytes. */
static inline credits_field credits_field_bytes(uint8_t name, const void *bytes, uint64_t len)
{
    credits_field f = { 0, 0, NULL, 0, { { 0, 0 }, 0 } };
    f.name = name;
    f.kind = CREDITS_KIND_TEXT;
    f.text = (const uint8_t *)bytes;
    f.text_len = len;
    return f;
}

/* The text of a C string. Of NULL it is a byte that is not there, which no builder takes. */
static inline credits_field credits_field_text(uint8_t name, const char *text)
{
    return credits_field_bytes(name, text, text ? strlen(text) : 1);
}

/* An amount. A state holds it as it is; an input, where amounts are texts, holds its text, which must have no point. */
static inline credits_field credits_field_amount(uint8_t name, credits_amount amount)
{
    credits_field f = { 0, 0, NULL, 0, { { 0, 0 }, 0 } };
    f.name = name;
    f.kind = CREDITS_KIND_AMOUNT;
    f.amount = amount;
    return f;
}

/* The same of a whole number. */
static inline credits_field credits_field_whole(uint8_t name, uint64_t number)
{
    credits_amount amount = { { 0, 0 }, 0 };
    amount.mantissa.lo = number;
    return credits_field_amount(name, amount);
}

/* A value that is no string, for an input that came with one. */
static inline credits_field credits_field_other(uint8_t name)
{
    credits_field f = { 0, 0, NULL, 0, { { 0, 0 }, 0 } };
    f.name = name;
    f.kind = CREDITS_KIND_OTHER;
    return f;
}

/* ---- sheets */

static inline void credits_put_number_(uint8_t *to, uint64_t number, int bytes)
{
    for (int i = 0; i < bytes; i++)
        to[i] = (uint8_t)(number >> 8 * i);
}

/* Writes the body of a field where `to` is not NULL, and gives its length; above CREDITS_TEXT_MAX where it has none. */
static inline uint64_t credits_put_body_(uint8_t *to, const credits_field *f, int in_state)
{
    const uint64_t none = CREDITS_TEXT_MAX + 1;
    if (f->kind == CREDITS_KIND_AMOUNT && in_state) {
        if (to) {
            credits_put_number_(to, f->amount.mantissa.lo, 8);
            credits_put_number_(to + 8, f->amount.mantissa.hi, 8);
            to[16] = f->amount.scale;
        }
        return 17;
    }
    if (f->kind == CREDITS_KIND_AMOUNT) {
        credits_text text = credits_amount_text(f->amount);
        if (memchr(text.bytes, '.', text.len))
            return none;
        if (to)
            memcpy(to, text.bytes, text.len);
        return text.len;
    }
    if (f->kind == CREDITS_KIND_TEXT) {
        if (f->text_len > 0 && !f->text)
            return none;
        if (to && f->text_len > 0)
            memcpy(to, f->text, (size_t)f->text_len);
        return f->text_len;
    }
    return f->kind == CREDITS_KIND_OTHER ? 0 : none;
}

/* The count, a six-byte entry for each field, then the bodies. All is tested before the first byte is written. */
static inline uint64_t credits_build_(uint8_t *out, uint64_t out_len, const credits_field *fields, uint64_t count,
                                      int in_state)
{
    uint64_t k, len, end;
    if (count > CREDITS_FIELD_AUTHORIZED_BY || (count > 0 && !fields))
        return 0; /* names rise, so there are no more fields than names */
    end = 1 + 6 * count;
    for (k = 0; k < count; k++) {
        if (fields[k].name <= (k > 0 ? fields[k - 1].name : 0) || fields[k].name > CREDITS_FIELD_AUTHORIZED_BY)
            return 0;
        len = credits_put_body_(NULL, &fields[k], in_state);
        if (len > CREDITS_TEXT_MAX)
            return 0;
        end += len;
    }
    if (end > out_len || !out)
        return 0;
    out[0] = (uint8_t)count;
    end = 1 + 6 * count;
    for (k = 0; k < count; k++) {
        uint8_t *entry = out + 1 + 6 * k;
        entry[0] = fields[k].name;
        entry[1] = fields[k].kind;
        if (fields[k].kind == CREDITS_KIND_AMOUNT && !in_state)
            entry[1] = CREDITS_KIND_TEXT;
        len = credits_put_body_(out + end, &fields[k], in_state);
        credits_put_number_(entry + 2, end, 2);
        credits_put_number_(entry + 4, len, 2);
        end += len;
    }
    return end;
}

/* An input sheet: fields whose names rise, each at most once; no fields are the input that has none. CREDITS_INPUT_MAX bytes
 * are always enough. 0 where names do not rise, a text is over CREDITS_TEXT_MAX bytes, or an amount is not whole. */
static inline uint64_t credits_build_input(uint8_t *out, uint64_t out_len, const credits_field *fields, uint64_t count)
{
    return credits_build_(out, out_len, fields, count, 0);
}

static inline int credits_is_(const credits_field *f, uint8_t name, uint8_t kind)
{
    return f->name == name && f->kind == kind;
}

/* A state sheet: the subject and the unit, texts, and the quantity (a stack) or the balance, an amount; or the subject, a
 * text, and the amounts remaining and maximum (a meter). CREDITS_SHEET_MAX bytes are always enough. 0 for other fields. */
static inline uint64_t credits_build_state(uint8_t *out, uint64_t out_len, const credits_field *fields, uint64_t count)
{
    if (count != 3 || !fields || !credits_is_(fields, CREDITS_FIELD_SUBJECT, CREDITS_KIND_TEXT))
        return 0;
    if (credits_is_(fields + 1, CREDITS_FIELD_REMAINING, CREDITS_KIND_AMOUNT)) {
        if (!credits_is_(fields + 2, CREDITS_FIELD_MAXIMUM, CREDITS_KIND_AMOUNT))
            return 0;
    } else if (!credits_is_(fields + 1, CREDITS_FIELD_UNIT, CREDITS_KIND_TEXT) ||
               (!credits_is_(fields + 2, CREDITS_FIELD_QUANTITY, CREDITS_KIND_AMOUNT) &&
                !credits_is_(fields + 2, CREDITS_FIELD_BALANCE, CREDITS_KIND_AMOUNT))) {
        return 0;
    }
    return credits_build_(out, out_len, fields, count, 1);
}

/* ---- sessions */

/* One entry, as the functions below make it. The body is not copied: it is there until the session is built. */
typedef struct {
    uint8_t kind, a, b, t;
    const uint8_t *body;
    uint64_t body_len;
} credits_entry;

static inline credits_entry credits_entry_(uint8_t kind, uint8_t a, uint8_t b, uint8_t t, const void *body, uint64_t len)
{
    credits_entry e = { 0, 0, 0, 0, NULL, 0 };
    e.kind = kind;
    e.a = a;
    e.b = b;
    e.t = t;
    e.body = (const uint8_t *)body;
    e.body_len = len;
    return e;
}

static inline credits_entry credits_entry_start(const char *unit)
{
    return credits_entry_(CREDITS_ENTRY_START, 0, 0, 0, unit, unit ? strlen(unit) : 0);
}

static inline credits_entry credits_entry_open(uint8_t place, const uint8_t *sheet, uint64_t sheet_len)
{
    return credits_entry_(CREDITS_ENTRY_OPEN, place, 0, 0, sheet, sheet_len);
}

static inline credits_entry credits_entry_act(uint8_t place, uint8_t operation, const uint8_t *sheet, uint64_t sheet_len)
{
    return credits_entry_(CREDITS_ENTRY_ACT, place, operation, 0, sheet, sheet_len);
}

static inline credits_entry credits_entry_begin(uint8_t from, uint8_t to, uint8_t transfer, const uint8_t *sheet,
                                                uint64_t sheet_len)
{
    return credits_entry_(CREDITS_ENTRY_BEGIN, from, to, transfer, sheet, sheet_len);
}

static inline credits_entry credits_entry_finish(uint8_t transfer)
{
    return credits_entry_(CREDITS_ENTRY_FINISH, 0, 0, transfer, NULL, 0);
}

static inline credits_entry credits_entry_cancel(uint8_t transfer)
{
    return credits_entry_(CREDITS_ENTRY_CANCEL, 0, 0, transfer, NULL, 0);
}

static inline credits_entry credits_entry_close(uint8_t place)
{
    return credits_entry_(CREDITS_ENTRY_CLOSE, place, 0, 0, NULL, 0);
}

/* As documents 01 and 02 have each kind: what it does not use is 0, and all but finish, cancel and close have a body. */
static inline int credits_entry_fits_(const credits_entry *e)
{
    int has_body = e->body && e->body_len > 0 && e->body_len <= CREDITS_SESSION_MAX;
    switch (e->kind) {
    case CREDITS_ENTRY_START:
        return e->a == 0 && e->b == 0 && e->t == 0 && has_body;
    case CREDITS_ENTRY_OPEN:
        return e->b == 0 && e->t == 0 && has_body;
    case CREDITS_ENTRY_ACT:
        return e->t == 0 && has_body;
    case CREDITS_ENTRY_BEGIN:
        return has_body;
    case CREDITS_ENTRY_FINISH:
    case CREDITS_ENTRY_CANCEL:
        return e->a == 0 && e->b == 0 && e->body_len == 0;
    case CREDITS_ENTRY_CLOSE:
        return e->b == 0 && e->t == 0 && e->body_len == 0;
    default:
        return 0;
    }
}

/* A session: a start, whose unit has 1 to CREDITS_NAME_MAX bytes, and up to CREDITS_STEPS_MAX steps. CREDITS_SESSION_MAX
 * bytes are the most. A step that the book will refuse is a step all the same; but a sheet of no bytes is taken for one that
 * was not built, and gives 0. */
static inline uint64_t credits_build_session(uint8_t *out, uint64_t out_len, const credits_entry *entries, uint64_t count)
{
    uint64_t k, end;
    if (count < 1 || count > CREDITS_STEPS_MAX + 1 || !entries || entries[0].body_len > CREDITS_NAME_MAX)
        return 0;
    end = 2 + 8 * count;
    for (k = 0; k < count; k++) {
        if ((entries[k].kind == CREDITS_ENTRY_START) != (k == 0) || !credits_entry_fits_(&entries[k]))
            return 0;
        end += entries[k].body_len;
    }
    if (end > out_len || end > CREDITS_SESSION_MAX || !out)
        return 0;
    credits_put_number_(out, count, 2);
    end = 2 + 8 * count;
    for (k = 0; k < count; k++) {
        const credits_entry *e = &entries[k];
        uint8_t *entry = out + 2 + 8 * k;
        entry[0] = e->kind;
        entry[1] = e->a;
        entry[2] = e->b;
        entry[3] = e->t;
        credits_put_number_(entry + 4, end, 2);
        credits_put_number_(entry + 6, e->body_len, 2);
        if (e->body_len > 0)
            memcpy(out + end, e->body, (size_t)e->body_len);
        end += e->body_len;
    }
    return end;
}

#endif
