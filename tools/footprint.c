/* The stack below each call of libcredits.a, on x86-64: a region is painted, the one call is made with the stack pointer
 * at its end, and the depth is how far down a byte changed, the return address included and what is passed on the stack
 * left out. Of each call the deepest of several is printed, accepted ones and refused ones, and its budget, 0 for none.
 * tools/footprint builds and runs it. */
#include <credits.h>
#include <stdio.h>
#include <string.h>

enum { REGION = 65536, PAINT = 0xA5 };
enum { SUBJECT = 1, UNIT = 2, QUANTITY = 3, BALANCE = 4, MAXIMUM = 6, AMOUNT = 7 };

typedef struct { uint8_t bytes[600]; size_t len; } sheet;
typedef struct { const char *name; size_t budget, depth; } row;

static unsigned char region[REGION] __attribute__((aligned(64)));
static unsigned char result[4096];

/* Calls fn with these words: up to six in registers, then those on the stack, in the order of the ABI. */
static size_t depth_of(const void *fn, const uint64_t *regs, const uint64_t *words, size_t n)
{
    unsigned char *top = region + REGION - 256 - (n % 2 ? 8 : 0);
    memset(region, PAINT, REGION);
    register const void *f __asm__("r12") = fn;
    register const uint64_t *r __asm__("r13") = regs;
    register const uint64_t *w __asm__("r14") = words;
    register unsigned char *t __asm__("r15") = top;
    register size_t k __asm__("rcx") = n;
    __asm__ volatile("movq %%rsp, %%rbx\n\t"
                     "movq %%r15, %%rsp\n"
                     "1:\n\t"
                     "testq %%rcx, %%rcx\n\t"
                     "jz 2f\n\t"
                     "pushq -8(%%r14,%%rcx,8)\n\t"
                     "decq %%rcx\n\t"
                     "jmp 1b\n"
                     "2:\n\t"
                     "movq 0(%%r13), %%rdi\n\t"
                     "movq 8(%%r13), %%rsi\n\t"
                     "movq 16(%%r13), %%rdx\n\t"
                     "movq 24(%%r13), %%rcx\n\t"
                     "movq 32(%%r13), %%r8\n\t"
                     "movq 40(%%r13), %%r9\n\t"
                     "call *%%r12\n\t"
                     "movq %%rbx, %%rsp"
                     : "+r"(k)
                     : "r"(f), "r"(r), "r"(w), "r"(t)
                     : "rax", "rbx", "rdx", "rsi", "rdi", "r8", "r9", "r10", "r11", "xmm0", "xmm1", "xmm2", "xmm3",
                       "xmm4", "xmm5", "xmm6", "xmm7", "xmm8", "xmm9", "xmm10", "xmm11", "xmm12", "xmm13", "xmm14",
                       "xmm15", "memory", "cc");
    size_t low = 0;
    while (region[low] == PAINT)
        low++;
    return (size_t)(top - 8 * n - (region + low));
}

static void take(row *r, const void *fn, const uint64_t *regs, const uint64_t *words, size_t n)
{
    size_t d = depth_of(fn, regs, words, n);
    if (r->depth < d)
        r->depth = d;
}

static void show(row r)
{
    printf("%s %zu %zu\n", r.name, r.depth, r.budget);
}

/* ---- sheets */

static sheet input_sheet(size_t n, const uint8_t *names, const char *const *texts)
{
    sheet s = { { 0 }, 1 + 6 * n };
    s.bytes[0] = (uint8_t)n;
    for (size_t k = 0; k < n; k++) {
        size_t len = strlen(texts[k]);
        uint8_t entry[6] = { names[k], 1, (uint8_t)s.len, (uint8_t)(s.len >> 8), (uint8_t)len, (uint8_t)(len >> 8) };
        memcpy(s.bytes + 1 + 6 * k, entry, 6);
        memcpy(s.bytes + s.len, texts[k], len);
        s.len += len;
    }
    return s;
}

static sheet opening(const char *subject, const char *unit, const char *balance)
{
    const uint8_t names[] = { SUBJECT, UNIT, BALANCE };
    const char *const texts[] = { subject, unit, balance };
    return input_sheet(3, names, texts);
}

static sheet asking(const char *amount)
{
    const uint8_t names[] = { AMOUNT };
    const char *const texts[] = { amount };
    return input_sheet(1, names, texts);
}

#define WORD(x) ((uint64_t)(uintptr_t)(x))
#define SHEET(s) WORD((s)->bytes), (s)->len

/* ---- amounts */

static void amounts(void)
{
    const char *const texts[] = { "0", "7", "340282366920938463463374607431768211455", "1e3", "" };
    row read = { "credits_amount_read", 0, 0 };
    for (size_t i = 0; i < 5; i++) {
        uint64_t regs[6] = { WORD(result), WORD(texts[i]), strlen(texts[i]) };
        take(&read, (const void *)credits_amount_read, regs, NULL, 0);
    }
    show(read);
    const uint64_t most = UINT64_MAX;
    const uint64_t pairs[][6] = { { 0, 5, 0, 0, 7, 0 },         { 0, 5, 2, 0, 7, 9 },       { most, most, 0, 0, 1, 0 },
                                  { most, most, 3, 0, 1, 255 }, { 0, 1, 255, most, most, 0 }, { 1, 0, 30, 1, 0, 31 } };
    row compare = { "credits_amount_compare", 0, 0 }, add = { "credits_amount_add", 0, 0 },
        sub = { "credits_amount_sub", 0, 0 }, text = { "credits_amount_text", 0, 0 };
    for (size_t i = 0; i < 6; i++) {
        uint64_t regs[6] = { WORD(result) };
        take(&compare, (const void *)credits_amount_compare, regs, pairs[i], 6);
        take(&add, (const void *)credits_amount_add, regs, pairs[i], 6);
        take(&sub, (const void *)credits_amount_sub, regs, pairs[i], 6);
        take(&text, (const void *)credits_amount_text, regs, pairs[i], 3);
    }
    show(compare);
    show(add);
    show(sub);
    show(text);
}

/* ---- check, apply and credit: every profile and operation, at states of each kind and at none */

static sheet made(uint8_t profile, uint8_t operation, size_t n, const uint8_t *names, const char *const *texts)
{
    sheet input = input_sheet(n, names, texts), state = { { 0 }, 0 };
    credits_answer a = credits_apply(profile, operation, NULL, 0, input.bytes, input.len, state.bytes, sizeof state.bytes);
    state.len = a.length;
    return state;
}

static void sheets(void)
{
    enum { STATES = 5, INPUTS = 6 };
    const uint8_t held[] = { SUBJECT, UNIT, QUANTITY }, has[] = { SUBJECT, UNIT, BALANCE }, all[] = { 1, 2, 3, 4, 5, 6, 7, 8, 9, 10 };
    const uint8_t metered[] = { SUBJECT, MAXIMUM };
    const char *const few[] = { "N1", "rd", "5" }, *const cap[] = { "N1", "9" };
    const char *const full[] = { "N1", "rd", "4", "4", "4", "9", "3", "N2", "rd", "2" };
    const char *const empty[] = { "", "", "", "", "", "", "", "", "", "" };
    const sheet states[STATES] = { { { 0 }, 0 }, made(1, 1, 3, held, few), made(2, 11, 3, has, few), made(3, 21, 2, metered, cap), { { 9 }, 40 } };
    const sheet inputs[INPUTS] = { { { 0 }, 0 }, asking("3"), asking("300"), input_sheet(10, all, full), input_sheet(10, all, empty), { { 7 }, 20 } };
    uint8_t out[600];
    row check = { "credits_check", 1536, 0 }, apply = { "credits_apply", 1536, 0 }, credit = { "credits_credit", 1536, 0 };
    for (uint64_t profile = 0; profile <= 4; profile++)
        for (uint64_t operation = 0; operation <= 40; operation++)
            for (size_t s = 0; s < STATES; s++)
                for (size_t i = 0; i < INPUTS; i++) {
                    uint64_t regs[6] = { WORD(result), profile, operation, SHEET(&states[s]), WORD(inputs[i].bytes) };
                    uint64_t words[3] = { inputs[i].len, WORD(out), i % 2 ? sizeof out : 30 };
                    take(&check, (const void *)credits_check, regs, words, 1);
                    take(&apply, (const void *)credits_apply, regs, words, 3);
                    if (profile > 0)
                        continue;
                    for (size_t d = 0; d < STATES; d++) {
                        uint64_t cregs[6] = { WORD(result), operation, SHEET(&states[s]), SHEET(&states[d]) };
                        uint64_t cwords[4] = { SHEET(&inputs[i]), WORD(out), i % 2 ? sizeof out : 30 };
                        take(&credit, (const void *)credits_credit, cregs, cwords, 4);
                    }
                }
    show(check);
    show(apply);
    show(credit);
}

/* ---- the book: each step at a fresh book, at one with places and transfers, and at bytes that are no sound book */

static void books(void)
{
    enum { BOOKS = 4, INPUTS = 6 };
    credits_book all[BOOKS], book;
    const sheet most = opening("N2", "rd", "340282366920938463463374607431768211450"), one = asking("1"), thousand = asking("1000");
    const sheet inputs[INPUTS] = { { { 0 }, 0 }, opening("N3", "rd", "5"), opening("N3", "xx", "5"), asking("3"), asking("4000"), most };
    row start = { "credits_book_start", 3481, 0 }, open = { "credits_book_open", 2457, 0 }, act = { "credits_book_act", 2457, 0 },
        begin = { "credits_book_begin", 2457, 0 }, finish = { "credits_book_finish", 2457, 0 }, cancel = { "credits_book_cancel", 2457, 0 },
        close = { "credits_book_close", 2457, 0 };
    const size_t lengths[] = { 0, 1, 2, 32, 33 };
    for (size_t i = 0; i < 5; i++) {
        uint64_t regs[6] = { WORD(result), WORD("rdrdrdrdrdrdrdrdrdrdrdrdrdrdrdrdrd"), lengths[i] };
        take(&start, (const void *)credits_book_start, regs, NULL, 0);
    }
    show(start);
    all[0] = credits_book_start((const uint8_t *)"rd", 2).book;
    all[1] = all[0];
    for (uint8_t p = 0; p < 15; p++) {
        const sheet s = opening("N1", "rd", p < 14 ? "1000" : "0"); /* the last may be closed */
        credits_book_open(&all[1], p, s.bytes, s.len);
    }
    all[2] = all[1];
    for (uint8_t t = 0; t < 7; t++) /* the last place is awaited */
        credits_book_begin(&all[2], t, (uint8_t)(t < 6 ? t + 1 : 14), t, one.bytes, one.len);
    for (size_t k = 0; k < 3; k++) /* some of it may be released */
        credits_book_act(&all[2], 3, 16, one.bytes, one.len);
    credits_book_act(&all[2], 13, 16, thousand.bytes, thousand.len); /* nothing but that: not to be closed */
    memset(&all[3], 0xFF, sizeof all[3]);
    for (size_t b = 0; b < BOOKS; b++)
        for (size_t i = 0; i < INPUTS; i++)
            for (uint64_t n = 0; n <= 20; n++) {
                book = all[b];
                uint64_t regs[6] = { WORD(result), WORD(&book), n, SHEET(&inputs[i]) };
                take(&open, (const void *)credits_book_open, regs, NULL, 0);
                book = all[b];
                uint64_t acts[6] = { WORD(result), WORD(&book), 3, n, SHEET(&inputs[i]) };
                take(&act, (const void *)credits_book_act, acts, NULL, 0);
                book = all[b];
                uint64_t begins[6] = { WORD(result), WORD(&book), n, 3, n % 9, WORD(inputs[i].bytes) };
                take(&begin, (const void *)credits_book_begin, begins, &(uint64_t){ inputs[i].len }, 1);
                book = all[b];
                uint64_t ends[6] = { WORD(result), WORD(&book), n };
                take(&finish, (const void *)credits_book_finish, ends, NULL, 0);
                book = all[b];
                take(&cancel, (const void *)credits_book_cancel, ends, NULL, 0);
                book = all[b];
                take(&close, (const void *)credits_book_close, ends, NULL, 0);
            }
    show(open);
    show(act);
    show(begin);
    show(finish);
    show(cancel);
    show(close);
}

/* ---- sessions: of no bytes, of a start alone, and of 255 opens, acts (a release of what is not reserved, a reserve, a spend and a release
 * among them), closes of what was opened empty, and begins, each with its finish or its cancel */

static size_t entry(uint8_t *session, size_t k, size_t at, const uint8_t head[4], const void *body, size_t len)
{
    uint8_t row[8] = { head[0], head[1], head[2], head[3], (uint8_t)at, (uint8_t)(at >> 8), (uint8_t)len, (uint8_t)(len >> 8) };
    memcpy(session + 2 + 8 * k, row, 8);
    memcpy(session + at, body, len);
    return at + len;
}

static void sessions(void)
{
    enum { ENTRIES = 256 };
    static uint8_t session[16384], out[CREDITS_LISTING_MAX];
    const sheet opened = opening("N1", "rd", "1000"), empty = opening("N1", "rd", "0"), three = asking("3");
    size_t lengths[] = { 0, 12, 0 }, at = 2 + 8 * ENTRIES;
    row ran = { "credits_session_run", 7168, 0 }, listed = { "credits_session_listing", 0, 0 };
    for (size_t n = 1; n < 3; n++) {
        size_t entries = n == 1 ? 1 : ENTRIES;
        session[0] = (uint8_t)entries, session[1] = (uint8_t)(entries >> 8);
        at = entry(session, 0, 2 + 8 * entries, (const uint8_t[4]){ 0 }, "rd", 2);
        for (size_t k = 1; k < entries; k++) {
            uint8_t turn = (uint8_t)(k % 4), t = (uint8_t)(k / 4 % 8), p = (uint8_t)(k / 4 % 16);
            const uint8_t operations[] = { 17, 16, 18 }, act = operations[k / 8 % 3];
            const uint8_t heads[4][4] = { { 1, p }, { 2, 0, act }, { 3, 0, 2, t }, { t % 2 ? 5 : 4, 0, 0, t } }, close[4] = { 6, p };
            const uint8_t *head = p % 2 && turn == 1 ? close : heads[turn];
            const sheet *body = turn > 0 ? &three : p % 2 ? &empty : &opened;
            at = entry(session, k, at, head, body->bytes, head[0] < 4 ? body->len : 0);
        }
        lengths[n] = at;
        uint64_t regs[6] = { WORD(result), WORD(session), lengths[n] };
        take(&ran, (const void *)credits_session_run, regs, NULL, 0);
        uint64_t lists[6] = { WORD(session), lengths[n], WORD(out), sizeof out };
        take(&listed, (const void *)credits_session_listing, lists, NULL, 0);
    }
    show(ran);
    show(listed);
}

int main(void)
{
    amounts();
    sheets();
    books();
    sessions();
    return 0;
}
