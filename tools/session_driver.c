/* Puts sessions to libcredits.a for tools/compare-sessions: reads a length (32 bits, this machine's order) and so many bytes, again and
 * again, and writes of each what the run gave and the listing. The first byte that it writes counts faults that are seen here: a step
 * behind the last that is not zeros, a buffer that was written where the listing did not fit, or behind it. */
#include <credits.h>
#include <stdio.h>
#include <stdlib.h>
#include <string.h>

static uint8_t session[1 << 20], out[8192];

static void put(const void *data, size_t n)
{
    if (fwrite(data, 1, n, stdout) != n)
        exit(1);
}

static void number(credits_uint128 n)
{
    put(&n.lo, 8);
    put(&n.hi, 8);
}

static void amount(credits_amount a)
{
    number(a.mantissa);
    put(&a.scale, 1);
}

static uint8_t filled(size_t from, uint8_t fill)
{
    for (size_t i = from; i < sizeof out; i++)
        if (out[i] != fill)
            return 1;
    return 0;
}

int main(void)
{
    uint32_t n;
    while (fread(&n, sizeof n, 1, stdin) == 1) {
        if (n > sizeof session || fread(session, 1, n, stdin) != n)
            return 1;
        credits_run run = credits_session_run(session, n);
        memset(out, 0xA5, sizeof out);
        uint16_t length = credits_session_listing(session, n, out, sizeof out);
        uint8_t faults = filled(length, 0xA5);
        for (int k = run.count; k < 255; k++)
            faults += run.steps[k].number || run.steps[k].detail;
        uint8_t text[8192];
        memcpy(text, out, length);
        memset(out, 0x5A, sizeof out);
        faults += length == 0 || credits_session_listing(session, n, out, length - 1u) != 0 || filled(0, 0x5A);
        faults += credits_session_listing(session, n, out, length) != length || memcmp(out, text, length) || filled(length, 0x5A);

        put(&faults, 1);
        put(&run.number, 1);
        put(&run.count, 2);
        for (int k = 0; k < run.count; k++) {
            put(&run.steps[k].number, 1);
            put(&run.steps[k].detail, 1);
        }
        put(run.book.unit.bytes, 32);
        put(&run.book.unit.len, 1);
        put(&run.book.opened, 2);
        put(&run.book.pending, 1);
        for (int p = 0; p < 16; p++) {
            put(run.book.places[p].subject.bytes, 32);
            put(&run.book.places[p].subject.len, 1);
            amount(run.book.places[p].balance);
            amount(run.book.places[p].reserved);
        }
        for (int t = 0; t < 8; t++) {
            put(&run.book.transfers[t].from, 1);
            put(&run.book.transfers[t].to, 1);
            amount(run.book.transfers[t].amount);
        }
        put(&length, 2);
        put(text, length);
        fflush(stdout);
    }
    return 0;
}
