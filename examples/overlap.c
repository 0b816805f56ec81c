/* A gateway's book: three places, transfers that overlap both ways, refused steps among them, the transfers finished in
 * reverse, one that is cancelled, credits that are reserved and released, and a place that is closed and serves another node.
 * After each step it prints the answer, each place's balance + what it has reserved, what is under way and the total. Then it
 * hands over what no sender should send, and shows the copy to make where a sheet stands in the book's own memory. */
#include <credits.h>
#include <credits_sheet.h>
#include <stdio.h>
#include <stdlib.h>
#include <string.h>

#define UNIT "rd"

enum { N1, N2, GW, NEXT }; /* places of the book: two nodes and the gateway; the next one stays closed */

typedef struct { uint8_t bytes[CREDITS_INPUT_MAX]; uint64_t len; } sheet;

static sheet input_of(const credits_field *fields, uint64_t count)
{
    sheet s;
    s.len = credits_build_input(s.bytes, sizeof s.bytes, fields, count);
    if (s.len == 0) {
        fprintf(stderr, "the fields make no sheet\n");
        exit(1);
    }
    return s;
}

static sheet opening(const char *subject, uint64_t balance)
{
    const credits_field fields[] = { credits_field_text(CREDITS_FIELD_SUBJECT, subject),
                                     credits_field_text(CREDITS_FIELD_UNIT, UNIT),
                                     credits_field_whole(CREDITS_FIELD_BALANCE, balance) };
    return input_of(fields, CREDITS_COUNT(fields));
}

static sheet asking(uint64_t amount)
{
    const credits_field fields[] = { credits_field_whole(CREDITS_FIELD_AMOUNT, amount) };
    return input_of(fields, CREDITS_COUNT(fields));
}

static void print_amount(const char *before, credits_amount a)
{
    credits_text t = credits_amount_text(a);
    printf("%s%.*s", before, t.len, (const char *)t.bytes);
}

static void print_answer(const char *what, credits_answer a)
{
    printf("%-32s %u %s, detail %u", what, a.number, credits_word(a.number), a.detail);
    if (a.number == CREDITS_SHORT) {
        print_amount(", available ", a.available);
        print_amount(", requested ", a.requested);
    }
    printf("\n");
}

/* The answer of a step, and the book after it. The total is what the places hold and have reserved and what is under way. */
static void print_step(const char *what, credits_answer a, const credits_book *book)
{
    credits_amount total = { { 0, 0 }, 0 };
    print_answer(what, a);
    printf("   ");
    for (unsigned p = 0; p < CREDITS_PLACES; p++)
        if (book->opened >> p & 1) {
            const credits_place *place = &book->places[p];
            printf(" %.*s", place->subject.len, (const char *)place->subject.bytes);
            print_amount(" ", place->balance);
            print_amount("+", place->reserved);
            total = credits_amount_add(total, place->balance).amount;
            total = credits_amount_add(total, place->reserved).amount;
        }
    for (unsigned t = 0; t < CREDITS_TRANSFERS; t++)
        if (book->pending >> t & 1) {
            printf(" (transfer %u: %u to %u,", t, book->transfers[t].from, book->transfers[t].to);
            print_amount(" ", book->transfers[t].amount);
            printf(")");
            total = credits_amount_add(total, book->transfers[t].amount).amount;
        }
    print_amount(" total ", total);
    printf("\n");
}

static credits_answer open_place(credits_book *book, uint8_t place, sheet s)
{
    return credits_book_open(book, place, s.bytes, s.len);
}

static credits_answer act(credits_book *book, uint8_t place, uint8_t operation, sheet s)
{
    return credits_book_act(book, place, operation, s.bytes, s.len);
}

static credits_answer begin(credits_book *book, uint8_t from, uint8_t to, uint8_t transfer, sheet s)
{
    return credits_book_begin(book, from, to, transfer, s.bytes, s.len);
}

/* One piece of memory for what was received and then for the book: a sheet in it would overlap *book. A call may not be
 * given both, so the sheet is copied out first. */
static void reuse_the_buffer(void)
{
    union { uint8_t received[sizeof(credits_book)]; credits_book book; } memory;
    sheet arrived = opening("N9", 8), copy;
    memcpy(memory.received, arrived.bytes, (size_t)arrived.len);

    memcpy(copy.bytes, memory.received, (size_t)arrived.len); /* before the book is written over it */
    copy.len = arrived.len;
    memory.book = credits_book_start((const uint8_t *)UNIT, strlen(UNIT)).book;
    print_step("open from a copied sheet", open_place(&memory.book, N1, copy), &memory.book);
}

int main(void)
{
    if (credits_book_size() != sizeof(credits_book)) {
        printf("a book has %u bytes in the library, %zu here\n", (unsigned)credits_book_size(), sizeof(credits_book));
        return 1;
    }
    print_answer("start with no unit", credits_book_start(NULL, 0).answer);
    credits_started started = credits_book_start((const uint8_t *)UNIT, strlen(UNIT));
    credits_book book = started.book;
    print_step("start in rd", started.answer, &book);
    print_step("open 0: N1 with 10", open_place(&book, N1, opening("N1", 10)), &book);
    print_step("open 1: N2 with 5", open_place(&book, N2, opening("N2", 5)), &book);
    print_step("open 2: GW with 0", open_place(&book, GW, opening("GW", 0)), &book);

    print_step("begin 0: N1 to N2, 4", begin(&book, N1, N2, 0, asking(4)), &book);
    print_step("begin 1: N2 to N1, 5", begin(&book, N2, N1, 1, asking(5)), &book); /* what comes is not there yet */
    print_step("begin 1: N1 to GW, 1", begin(&book, N1, GW, 1, asking(1)), &book); /* that number is in use */
    print_step("begin 2: N1 to GW, 7", begin(&book, N1, GW, 2, asking(7)), &book); /* N1 holds 6 */
    print_step("begin 2: N1 to GW, 6", begin(&book, N1, GW, 2, asking(6)), &book);
    print_step("GW is credited 3", act(&book, GW, CREDITS_BALANCE_CREDIT, asking(3)), &book);
    print_step("N1 spends 1", act(&book, N1, CREDITS_BALANCE_SPEND, asking(1)), &book); /* 5 are on their way to it */

    print_step("finish 2", credits_book_finish(&book, 2), &book);
    print_step("finish 1", credits_book_finish(&book, 1), &book);
    print_step("finish 0", credits_book_finish(&book, 0), &book);
    print_step("finish 0 again", credits_book_finish(&book, 0), &book);
    print_step("N1 spends 1", act(&book, N1, CREDITS_BALANCE_SPEND, asking(1)), &book);

    print_step("begin 0: N1 to GW, 4", begin(&book, N1, GW, 0, asking(4)), &book); /* the wrong node was picked */
    print_step("cancel 0", credits_book_cancel(&book, 0), &book); /* back at N1 */
    print_step("cancel 0 again", credits_book_cancel(&book, 0), &book);

    print_step("N1 reserves 3", act(&book, N1, CREDITS_BALANCE_RESERVE, asking(3)), &book);
    print_step("N1 spends 2", act(&book, N1, CREDITS_BALANCE_SPEND, asking(2)), &book); /* what is reserved is not spent */
    print_step("N1 releases 4", act(&book, N1, CREDITS_BALANCE_RELEASE, asking(4)), &book);
    print_step("N1 releases 3", act(&book, N1, CREDITS_BALANCE_RELEASE, asking(3)), &book);

    print_step("close 1", credits_book_close(&book, N2), &book); /* N2 leaves, and its credits go to the gateway first */
    print_step("begin 0: N2 to GW, 4", begin(&book, N2, GW, 0, asking(4)), &book);
    print_step("close 1", credits_book_close(&book, N2), &book); /* a cancel would put them back there */
    print_step("finish 0", credits_book_finish(&book, 0), &book);
    print_step("close 1", credits_book_close(&book, N2), &book);
    print_step("open 1: N3 with 2", open_place(&book, N2, opening("N3", 2)), &book);

    uint8_t noise[64];
    for (unsigned i = 0; i < sizeof noise; i++)
        noise[i] = (uint8_t)(i * 37 + 11); /* any bytes will do */
    print_step("NULL as sheet", credits_book_open(&book, NEXT, NULL, 0), &book);
    print_step("random bytes as sheet", credits_book_begin(&book, N1, N2, 0, noise, sizeof noise), &book);
    print_step("place 16", act(&book, CREDITS_PLACES, CREDITS_BALANCE_SPEND, asking(1)), &book); /* one too many */

    credits_book worn;
    memset(&worn, 0xFF, sizeof worn); /* as erased flash reads */
    print_answer("a book of 0xFF", credits_book_finish(&worn, 0));

    reuse_the_buffer();
    return 0;
}
