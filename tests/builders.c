/* credits_sheet.h: what it builds, against bytes written out by hand and against the library; what it refuses; and that no byte
 * outside what it says is written. tests/header-test builds and runs it as C99, C11 and C++, so it is written in what they share.
 * Prints each difference with its line, then one line of counts; status 1 where anything differed. */
#include <credits_sheet.h>
#include <stdio.h>

static unsigned long tried, wrong;

static void holds(int line, const char *what, int is)
{
    tried++;
    if (!is) {
        printf("tests/builders.c:%d: %s\n", line, what);
        wrong++;
    }
}
#define HOLDS(is) holds(__LINE__, #is, is)

/* ---- a buffer between guards; each byte of the pattern tells its place */

enum { GUARD = 16, ROOM = CREDITS_SESSION_MAX + 64 };
static uint8_t space[GUARD + ROOM + GUARD];
static uint8_t *const out = space + GUARD;

static uint8_t pattern(unsigned i)
{
    return (uint8_t)(i * 7 + 165);
}

static void clear(void)
{
    for (unsigned i = 0; i < sizeof space; i++)
        space[i] = pattern(i);
}

/* Whether the first `len` bytes of out are those, and every other byte is as clear() left it. */
static int only(const uint8_t *bytes, uint64_t len)
{
    for (unsigned i = 0; i < sizeof space; i++) {
        int inside = i >= GUARD && i - GUARD < len;
        if (space[i] != (inside ? bytes[i - GUARD] : pattern(i)))
            return 0;
    }
    return 1;
}

/* ---- one build for each kind of bytes, so that all of them are tried in the same ways */

typedef struct { const credits_field *fields; const credits_entry *entries; uint64_t count; int in_state; } given;

static given an_input(const credits_field *fields, uint64_t count)
{
    given g = { fields, NULL, count, 0 };
    return g;
}

static given a_state(const credits_field *fields, uint64_t count)
{
    given g = { fields, NULL, count, 1 };
    return g;
}

static given a_session(const credits_entry *entries, uint64_t count)
{
    given g = { NULL, entries, count, 0 };
    return g;
}

static uint64_t build(const given *g, uint8_t *to, uint64_t room)
{
    if (g->entries)
        return credits_build_session(to, room, g->entries, g->count);
    return g->in_state ? credits_build_state(to, room, g->fields, g->count) : credits_build_input(to, room, g->fields, g->count);
}

/* It gives these bytes, in a buffer that is just long enough and in a longer one; in every shorter one it gives 0 and writes
 * nothing. */
static void gives(int line, given g, const uint8_t *bytes, uint64_t len)
{
    uint64_t room, step = len > 600 ? len / 97 : 1; /* of a long one some lengths, and its last */
    for (room = 0; room < len; room += step) {
        clear();
        holds(line, "0 in a shorter buffer", build(&g, out, room) == 0);
        holds(line, "nothing written in a shorter buffer", only(NULL, 0));
    }
    clear();
    holds(line, "0 in a buffer one byte short", build(&g, out, len - 1) == 0 && only(NULL, 0));
    holds(line, "the length, in a buffer of that length", build(&g, out, len) == len);
    holds(line, "the bytes, in a buffer of that length", only(bytes, len));
    clear();
    holds(line, "the length, in a longer buffer", build(&g, out, ROOM) == len);
    holds(line, "the bytes, in a longer buffer", only(bytes, len));
    holds(line, "0 for NULL", build(&g, NULL, 0) == 0 && build(&g, NULL, ROOM) == 0);
}
#define GIVES(g, bytes) gives(__LINE__, g, bytes, sizeof bytes)

/* It gives 0 in a long buffer, and writes nothing. */
static void refuses(int line, given g)
{
    clear();
    holds(line, "0 for what makes no sheet or session", build(&g, out, ROOM) == 0);
    holds(line, "nothing written of what makes no sheet or session", only(NULL, 0));
}
#define REFUSES(g) refuses(__LINE__, g)

static credits_amount amount(uint64_t hi, uint64_t lo, uint8_t scale)
{
    credits_amount a;
    a.mantissa.hi = hi;
    a.mantissa.lo = lo;
    a.scale = scale;
    return a;
}

/* ---- inputs */

static void inputs(void)
{
    const credits_field three[] = { credits_field_whole(CREDITS_FIELD_AMOUNT, 3) };
    const uint8_t three_bytes[] = { 1, 7, 1, 7, 0, 1, 0, '3' };
    const credits_field text[] = { credits_field_text(CREDITS_FIELD_AMOUNT, "3") };
    const credits_field mixed[] = { credits_field_bytes(CREDITS_FIELD_SUBJECT, "a\0b", 3),
                                    credits_field_text(CREDITS_FIELD_UNIT, ""), credits_field_other(CREDITS_FIELD_AMOUNT),
                                    credits_field_text(CREDITS_FIELD_AUTHORIZED_BY, "owner") };
    const uint8_t mixed_bytes[] = { 4, 1, 1, 25, 0, 3, 0, 2, 1, 28, 0, 0, 0, 7, 2, 28, 0, 0, 0, 10, 1, 28, 0, 5, 0,
                                    'a', 0, 'b', 'o', 'w', 'n', 'e', 'r' };
    const uint8_t none[] = { 0 };
    const credits_field zero[] = { credits_field_whole(CREDITS_FIELD_AMOUNT, 0) };
    const uint8_t zero_bytes[] = { 1, 7, 1, 7, 0, 1, 0, '0' };
    /* equal amounts print alike, so (50, 1) is 5 */
    const credits_field five[] = { credits_field_amount(CREDITS_FIELD_AMOUNT, amount(0, 50, 1)) };
    const uint8_t five_bytes[] = { 1, 7, 1, 7, 0, 1, 0, '5' };
    const credits_field most[] = { credits_field_amount(CREDITS_FIELD_AMOUNT, amount(UINT64_MAX, UINT64_MAX, 0)) };
    const char most_text[] = "340282366920938463463374607431768211455";
    uint8_t most_bytes[7 + 39] = { 1, 7, 1, 7, 0, 39, 0 };
    memcpy(most_bytes + 7, most_text, 39);

    GIVES(an_input(three, 1), three_bytes);
    GIVES(an_input(text, 1), three_bytes);
    GIVES(an_input(mixed, 4), mixed_bytes);
    GIVES(an_input(NULL, 0), none);
    GIVES(an_input(zero, 1), zero_bytes);
    GIVES(an_input(five, 1), five_bytes);
    GIVES(an_input(most, 1), most_bytes);
}

static void the_longest_input(void)
{
    static char longest[CREDITS_TEXT_MAX + 2];
    static uint8_t bytes[CREDITS_INPUT_MAX];
    credits_field fields[CREDITS_FIELD_AUTHORIZED_BY + 1];
    memset(longest, 'x', CREDITS_TEXT_MAX + 1);
    bytes[0] = 10;
    for (unsigned k = 0; k < 10; k++) {
        unsigned at = 61 + 256 * k;
        fields[k] = credits_field_bytes((uint8_t)(k + 1), longest, CREDITS_TEXT_MAX);
        bytes[1 + 6 * k] = (uint8_t)(k + 1);
        bytes[2 + 6 * k] = 1;
        bytes[3 + 6 * k] = (uint8_t)at;
        bytes[4 + 6 * k] = (uint8_t)(at >> 8);
        bytes[5 + 6 * k] = 0;
        bytes[6 + 6 * k] = 1;
    }
    memset(bytes + 61, 'x', 2560);
    GIVES(an_input(fields, 10), bytes);
    /* sound: the balance, which is no number, is what check finds */
    HOLDS(credits_check(CREDITS_PROFILE_BALANCE, CREDITS_BALANCE_CREATE, NULL, 0, bytes, sizeof bytes).number == CREDITS_NOT_WHOLE);

    fields[10] = credits_field_text(CREDITS_FIELD_AUTHORIZED_BY + 1, "x");
    REFUSES(an_input(fields, 11));
    REFUSES(an_input(fields + 10, 1)); /* a name that is none */
    REFUSES(an_input(fields, UINT64_MAX));
    fields[3] = credits_field_text(CREDITS_FIELD_BALANCE, longest); /* 257 bytes */
    REFUSES(an_input(fields, 10));
    fields[3] = credits_field_bytes(CREDITS_FIELD_BALANCE, longest, UINT64_MAX);
    REFUSES(an_input(fields, 10));
}

static void wrong_inputs(void)
{
    const credits_field falling[] = { credits_field_text(CREDITS_FIELD_UNIT, "rd"), credits_field_text(CREDITS_FIELD_SUBJECT, "N1") };
    const credits_field twice[] = { credits_field_text(CREDITS_FIELD_UNIT, "rd"), credits_field_text(CREDITS_FIELD_UNIT, "rd") };
    const credits_field nameless[] = { credits_field_text(0, "N1") };
    const credits_field half[] = { credits_field_amount(CREDITS_FIELD_AMOUNT, amount(0, 15, 1)) };
    const credits_field tiny[] = { credits_field_amount(CREDITS_FIELD_AMOUNT, amount(0, 1, 255)) };
    const credits_field no_text[] = { credits_field_text(CREDITS_FIELD_AMOUNT, NULL) };
    const credits_field no_bytes[] = { credits_field_bytes(CREDITS_FIELD_AMOUNT, NULL, 3) };
    credits_field unkind[] = { credits_field_text(CREDITS_FIELD_AMOUNT, "3") };
    REFUSES(an_input(falling, 2));
    REFUSES(an_input(twice, 2));
    REFUSES(an_input(nameless, 1));
    REFUSES(an_input(half, 1));
    REFUSES(an_input(tiny, 1));
    REFUSES(an_input(no_text, 1));
    REFUSES(an_input(no_bytes, 1));
    REFUSES(an_input(NULL, 1));
    unkind[0].kind = 0;
    REFUSES(an_input(unkind, 1));
    unkind[0].kind = 4;
    REFUSES(an_input(unkind, 1));
}

/* ---- states */

static void states(void)
{
    const credits_field balance[] = { credits_field_text(CREDITS_FIELD_SUBJECT, "N1"), credits_field_text(CREDITS_FIELD_UNIT, "rd"),
                                      credits_field_whole(CREDITS_FIELD_BALANCE, 5) };
    const uint8_t balance_bytes[] = { 3, 1, 1, 19, 0, 2, 0, 2, 1, 21, 0, 2, 0, 4, 3, 23, 0, 17, 0, 'N', '1', 'r', 'd',
                                      5, 0, 0, 0, 0, 0, 0, 0, 0, 0, 0, 0, 0, 0, 0, 0, 0 };
    const credits_field stack[] = { credits_field_text(CREDITS_FIELD_SUBJECT, "N1"), credits_field_text(CREDITS_FIELD_UNIT, "rd"),
                                    credits_field_amount(CREDITS_FIELD_QUANTITY, amount(0x1112131415161718, 0x2122232425262728, 9)) };
    const uint8_t stack_bytes[] = { 3, 1, 1, 19, 0, 2, 0, 2, 1, 21, 0, 2, 0, 3, 3, 23, 0, 17, 0, 'N', '1', 'r', 'd',
                                    0x28, 0x27, 0x26, 0x25, 0x24, 0x23, 0x22, 0x21, 0x18, 0x17, 0x16, 0x15, 0x14, 0x13, 0x12, 0x11, 9 };
    const credits_field meter[] = { credits_field_text(CREDITS_FIELD_SUBJECT, "N1"), credits_field_whole(CREDITS_FIELD_REMAINING, 5),
                                    credits_field_whole(CREDITS_FIELD_MAXIMUM, 9) };
    const uint8_t meter_bytes[] = { 3, 1, 1, 19, 0, 2, 0, 5, 3, 21, 0, 17, 0, 6, 3, 38, 0, 17, 0, 'N', '1',
                                    5, 0, 0, 0, 0, 0, 0, 0, 0, 0, 0, 0, 0, 0, 0, 0, 0,
                                    9, 0, 0, 0, 0, 0, 0, 0, 0, 0, 0, 0, 0, 0, 0, 0, 0 };
    GIVES(a_state(balance, 3), balance_bytes);
    GIVES(a_state(stack, 3), stack_bytes);
    GIVES(a_state(meter, 3), meter_bytes);
    /* an amount that an input may not have */
    REFUSES(an_input(stack, 3));
    REFUSES(a_state(balance, 2));
    REFUSES(a_state(balance, 0));
    REFUSES(a_state(NULL, 3));
}

/* Fields of names 1 to 5, 2 to 6 and 3 to 7, of every kind: those of the three forms alone are a state. */
static void forms(void)
{
    unsigned long built = 0;
    for (uint8_t code = 0; code < 125; code++) {
        for (uint8_t k = 0; k < 27; k++) {
            const uint8_t names[3] = { (uint8_t)(code / 25 + 1), (uint8_t)(code / 5 % 5 + 2), (uint8_t)(code % 5 + 3) };
            const uint8_t kinds[3] = { (uint8_t)(k / 9 + 1), (uint8_t)(k / 3 % 3 + 1), (uint8_t)(k % 3 + 1) };
            credits_field fields[3];
            int stack = names[0] == 1 && names[1] == 2 && (names[2] == 3 || names[2] == 4) && k == 2;
            int meter = names[0] == 1 && names[1] == 5 && names[2] == 6 && k == 8;
            for (int i = 0; i < 3; i++)
                fields[i] = kinds[i] == 1   ? credits_field_text(names[i], "N1")
                            : kinds[i] == 2 ? credits_field_other(names[i])
                                            : credits_field_whole(names[i], 5);
            uint64_t len = credits_build_state(out, ROOM, fields, 3);
            HOLDS((len != 0) == (stack || meter));
            built += len != 0;
        }
    }
    HOLDS(built == 3);
}

static void the_longest_state(void)
{
    static char longest[CREDITS_TEXT_MAX + 1];
    static uint8_t created[CREDITS_SHEET_MAX];
    uint8_t input[CREDITS_INPUT_MAX];
    credits_field fields[3];
    uint64_t len;
    memset(longest, 'x', CREDITS_TEXT_MAX + 1);
    fields[0] = credits_field_bytes(CREDITS_FIELD_SUBJECT, longest, CREDITS_TEXT_MAX);
    fields[1] = credits_field_bytes(CREDITS_FIELD_UNIT, longest, CREDITS_TEXT_MAX);
    fields[2] = credits_field_whole(CREDITS_FIELD_BALANCE, 5);
    /* what apply writes of the same fields as an input */
    len = credits_build_input(input, sizeof input, fields, 3);
    HOLDS(len != 0);
    HOLDS(credits_apply(CREDITS_PROFILE_BALANCE, CREDITS_BALANCE_CREATE, NULL, 0, input, len, created, sizeof created).length ==
          CREDITS_SHEET_MAX);
    GIVES(a_state(fields, 3), created);
    fields[1] = credits_field_bytes(CREDITS_FIELD_UNIT, longest, CREDITS_TEXT_MAX + 1);
    REFUSES(a_state(fields, 3));
}

/* What is built is what the library writes of a created state, and is taken by check, apply and credit. */
static void round_trips(void)
{
    static const struct { uint8_t profile, create, take, second, third; } forms_of[] = {
        { CREDITS_PROFILE_STACK, CREDITS_STACK_CREATE, CREDITS_STACK_CONSUME, CREDITS_FIELD_UNIT, CREDITS_FIELD_QUANTITY },
        { CREDITS_PROFILE_BALANCE, CREDITS_BALANCE_CREATE, CREDITS_BALANCE_SPEND, CREDITS_FIELD_UNIT, CREDITS_FIELD_BALANCE },
        { CREDITS_PROFILE_METER, CREDITS_METER_CREATE, CREDITS_METER_CONSUME, CREDITS_FIELD_REMAINING, CREDITS_FIELD_MAXIMUM },
    };
    for (unsigned k = 0; k < CREDITS_COUNT(forms_of); k++) {
        uint8_t profile = forms_of[k].profile, state[CREDITS_SHEET_MAX], written[CREDITS_SHEET_MAX], input[CREDITS_INPUT_MAX];
        int meter = profile == CREDITS_PROFILE_METER, stack = profile == CREDITS_PROFILE_STACK;
        uint8_t asked = (uint8_t)(stack ? CREDITS_FIELD_QUANTITY : CREDITS_FIELD_AMOUNT);
        credits_field fields[3], three[1], six[1];
        uint64_t state_len, input_len;
        credits_answer a;
        fields[0] = credits_field_text(CREDITS_FIELD_SUBJECT, "N1");
        fields[1] = meter ? credits_field_whole(forms_of[k].second, 5) : credits_field_text(forms_of[k].second, "rd");
        fields[2] = credits_field_whole(forms_of[k].third, 5);
        state_len = credits_build_state(state, sizeof state, fields, 3);
        input_len = credits_build_input(input, sizeof input, fields, 3);
        a = credits_check(profile, forms_of[k].create, NULL, 0, input, input_len);
        HOLDS(a.number == CREDITS_ACCEPTED);
        a = credits_apply(profile, forms_of[k].create, NULL, 0, input, input_len, written, sizeof written);
        HOLDS(a.number == CREDITS_ACCEPTED && a.length == state_len && memcmp(written, state, (size_t)state_len) == 0);

        three[0] = credits_field_whole(asked, 3);
        input_len = credits_build_input(input, sizeof input, three, 1);
        a = credits_apply(profile, forms_of[k].take, state, state_len, input, input_len, written, sizeof written);
        HOLDS(a.number == CREDITS_ACCEPTED);
        fields[meter ? 1 : 2] = credits_field_whole(meter ? forms_of[k].second : forms_of[k].third, 2);
        state_len = credits_build_state(state, sizeof state, fields, 3);
        HOLDS(a.length == state_len && memcmp(written, state, (size_t)state_len) == 0);

        six[0] = credits_field_whole(asked, 6);
        input_len = credits_build_input(input, sizeof input, six, 1);
        a = credits_check(profile, forms_of[k].take, state, state_len, input, input_len);
        HOLDS(a.number == CREDITS_SHORT && a.available.mantissa.lo == 2 && a.requested.mantissa.lo == 6);
        /* what is short asked for again, as the answer has it */
        three[0] = credits_field_amount(asked, a.available);
        input_len = credits_build_input(input, sizeof input, three, 1);
        HOLDS(credits_check(profile, forms_of[k].take, state, state_len, input, input_len).number == CREDITS_ACCEPTED);
    }
}

/* Names of details and orders, by what the library gives. */
static void details(void)
{
    const uint8_t torn[] = { 1 }, transfer = CREDITS_BALANCE_TRANSFER;
    const credits_amount one = amount(0, 1, 0), two = amount(0, 2, 0);
    credits_answer a = credits_credit(transfer, torn, sizeof torn, NULL, 0, NULL, 0, NULL, 0);
    HOLDS(a.number == CREDITS_TORN_STATE && a.detail == CREDITS_DETAIL_SOURCE);
    a = credits_credit(transfer, NULL, 0, torn, sizeof torn, NULL, 0, NULL, 0);
    HOLDS(a.number == CREDITS_TORN_STATE && a.detail == CREDITS_DETAIL_DESTINATION);
    a = credits_check(CREDITS_PROFILE_BALANCE, transfer, torn, sizeof torn, NULL, 0);
    HOLDS(a.number == CREDITS_TORN_STATE && a.detail == CREDITS_DETAIL_SOURCE);
    HOLDS(credits_amount_compare(one, two) == CREDITS_LESS && credits_amount_compare(two, one) == CREDITS_GREATER);
    HOLDS(credits_amount_compare(one, one) == CREDITS_EQUAL);
}

/* ---- sessions: that of examples/overlap.session, and its listing */

static void sessions(void)
{
    static const uint8_t bytes[] = {
        6, 0, 0, 0, 0, 0, 50, 0, 2, 0, 1, 0, 0, 0, 52, 0, 24, 0, 1, 1, 0, 0, 76, 0, 24, 0,
        3, 0, 1, 0, 100, 0, 8, 0, 3, 1, 0, 1, 108, 0, 8, 0, 4, 0, 0, 0, 116, 0, 0, 0, 'r', 'd',
        3, 1, 1, 19, 0, 2, 0, 2, 1, 21, 0, 2, 0, 4, 1, 23, 0, 1, 0, 'N', '1', 'r', 'd', '5',
        3, 1, 1, 19, 0, 2, 0, 2, 1, 21, 0, 2, 0, 4, 1, 23, 0, 1, 0, 'N', '2', 'r', 'd', '0',
        1, 7, 1, 7, 0, 1, 0, '5', 1, 7, 1, 7, 0, 1, 0, '5'
    };
    static const char listing[] = "1 0 0\n2 0 0\n3 0 0\n4 15 0\n5 0 0\nplace 0 0 0\nplace 1 5 0\nheld 2 way 0 total 5\n";
    uint8_t n1[64], n2[64], five[64], printed[CREDITS_LISTING_MAX];
    credits_field fields[3];
    credits_entry entries[6], acted[3];
    const uint8_t acted_bytes[] = { 2, 0, 0, 0, 0, 0, 18, 0, 2, 0, 2, 9, 18, 0, 20, 0, 8, 0, 'r', 'd', 1, 7, 1, 7, 0, 1, 0, '5' };
    const uint8_t cancelled_bytes[] = { 2, 0, 0, 0, 0, 0, 18, 0, 2, 0, 5, 0, 0, 6, 20, 0, 0, 0, 'r', 'd' };
    const uint8_t closed_bytes[] = { 2, 0, 0, 0, 0, 0, 18, 0, 2, 0, 6, 9, 0, 0, 20, 0, 0, 0, 'r', 'd' };
    uint64_t n1_len, n2_len, five_len;
    fields[0] = credits_field_text(CREDITS_FIELD_SUBJECT, "N1");
    fields[1] = credits_field_text(CREDITS_FIELD_UNIT, "rd");
    fields[2] = credits_field_whole(CREDITS_FIELD_BALANCE, 5);
    n1_len = credits_build_input(n1, sizeof n1, fields, 3);
    fields[0] = credits_field_text(CREDITS_FIELD_SUBJECT, "N2");
    fields[2] = credits_field_whole(CREDITS_FIELD_BALANCE, 0);
    n2_len = credits_build_input(n2, sizeof n2, fields, 3);
    fields[0] = credits_field_whole(CREDITS_FIELD_AMOUNT, 5);
    five_len = credits_build_input(five, sizeof five, fields, 1);
    entries[0] = credits_entry_start("rd");
    entries[1] = credits_entry_open(0, n1, n1_len);
    entries[2] = credits_entry_open(1, n2, n2_len);
    entries[3] = credits_entry_begin(0, 1, 0, five, five_len);
    entries[4] = credits_entry_begin(1, 0, 1, five, five_len);
    entries[5] = credits_entry_finish(0);
    GIVES(a_session(entries, 6), bytes);
    HOLDS(credits_session_listing(bytes, sizeof bytes, printed, sizeof printed) == sizeof listing - 1);
    HOLDS(memcmp(printed, listing, sizeof listing - 1) == 0);
    acted[0] = entries[0];
    acted[1] = credits_entry_act(9, CREDITS_BALANCE_SPEND, five, five_len);
    GIVES(a_session(acted, 2), acted_bytes);
    acted[1] = credits_entry_cancel(6);
    GIVES(a_session(acted, 2), cancelled_bytes);
    acted[1] = credits_entry_close(9);
    GIVES(a_session(acted, 2), closed_bytes);

    REFUSES(a_session(entries, 0));
    REFUSES(a_session(entries + 1, 5)); /* no start */
    acted[2] = entries[0];
    REFUSES(a_session(acted, 3)); /* a second start */
    acted[2] = credits_entry_open(0, n1, 0); /* a sheet that was not built */
    REFUSES(a_session(acted, 3));
    acted[2] = credits_entry_begin(0, 1, 0, NULL, 8);
    REFUSES(a_session(acted, 3));
    acted[2] = entries[5];
    acted[2].kind = CREDITS_ENTRY_CLOSE + 1;
    REFUSES(a_session(acted, 3));
    acted[2] = entries[5];
    acted[2].body = five;
    acted[2].body_len = 1;
    REFUSES(a_session(acted, 3)); /* a finish has no body */
    acted[2].kind = CREDITS_ENTRY_CANCEL;
    REFUSES(a_session(acted, 3)); /* nor has a cancel */
    acted[2].kind = CREDITS_ENTRY_CLOSE;
    REFUSES(a_session(acted, 3)); /* nor a close */
    HOLDS(credits_build_session(out, ROOM, NULL, 1) == 0);
}

/* What a kind does not use is 0: of an entry of each kind with one field set, the builder takes those that the library takes. */
static void unused(void)
{
    for (unsigned k = 0; k < 7 * 3; k++) {
        static const uint8_t sheet[] = { 1, 7, 1, 7, 0, 1, 0, '5' };
        credits_entry entries[2];
        uint8_t kind = (uint8_t)(k / 3), *set, raw[10 + 8 + 2 + 8] = { 0 };
        int is_start = kind == CREDITS_ENTRY_START;
        int has_body = kind != CREDITS_ENTRY_FINISH && kind != CREDITS_ENTRY_CANCEL && kind != CREDITS_ENTRY_CLOSE;
        unsigned count = is_start ? 1 : 2, start = 2 + 8 * count, len = start + 2 + (!is_start && has_body ? 8 : 0);
        credits_entry *e = &entries[count - 1];
        entries[0] = credits_entry_start("rd");
        if (kind == CREDITS_ENTRY_OPEN)
            entries[1] = credits_entry_open(0, sheet, sizeof sheet);
        if (kind == CREDITS_ENTRY_ACT)
            entries[1] = credits_entry_act(0, 0, sheet, sizeof sheet);
        if (kind == CREDITS_ENTRY_BEGIN)
            entries[1] = credits_entry_begin(0, 0, 0, sheet, sizeof sheet);
        if (kind == CREDITS_ENTRY_FINISH)
            entries[1] = credits_entry_finish(0);
        if (kind == CREDITS_ENTRY_CANCEL)
            entries[1] = credits_entry_cancel(0);
        if (kind == CREDITS_ENTRY_CLOSE)
            entries[1] = credits_entry_close(0);
        set = k % 3 == 0 ? &e->a : k % 3 == 1 ? &e->b : &e->t;
        *set = 1;
        raw[0] = (uint8_t)count;
        raw[6] = (uint8_t)start;
        raw[8] = 2;
        if (!is_start) {
            raw[10] = kind;
            raw[14] = (uint8_t)(start + 2);
            raw[16] = has_body ? 8 : 0;
            if (has_body)
                memcpy(raw + start + 2, sheet, 8);
        }
        raw[2 + 8 * (count - 1) + 1 + k % 3] = 1;
        raw[start] = 'r';
        raw[start + 1] = 'd';
        if (credits_session_run(raw, len).number == CREDITS_ACCEPTED)
            gives(__LINE__, a_session(entries, count), raw, len);
        else
            refuses(__LINE__, a_session(entries, count));
    }
}

/* The longest session that is one, a byte more, the most entries and one more; and units of each length at its edges. */
static void the_longest_sessions(void)
{
    static uint8_t body[CREDITS_SESSION_MAX + 1];
    static credits_entry entries[CREDITS_STEPS_MAX + 2];
    char unit[CREDITS_NAME_MAX + 2];
    uint64_t most = CREDITS_SESSION_MAX - 2 - 2 * 8 - 2, len;
    unsigned k;
    entries[0] = credits_entry_start("rd");
    entries[1] = credits_entry_open(0, body, most);
    len = credits_build_session(out, ROOM, entries, 2);
    HOLDS(len == CREDITS_SESSION_MAX && credits_session_run(out, len).number == CREDITS_ACCEPTED);
    entries[1] = credits_entry_open(0, body, most + 1);
    REFUSES(a_session(entries, 2));
    entries[1] = credits_entry_open(0, body, UINT64_MAX);
    entries[2] = credits_entry_open(0, body, 30);
    REFUSES(a_session(entries, 3));

    for (k = 1; k < CREDITS_COUNT(entries); k++)
        entries[k] = credits_entry_finish(0);
    len = credits_build_session(out, ROOM, entries, CREDITS_STEPS_MAX + 1);
    HOLDS(len == 2 + 8 * 256 + 2 && credits_session_run(out, len).count == CREDITS_STEPS_MAX);
    REFUSES(a_session(entries, CREDITS_STEPS_MAX + 2));

    memset(unit, 'u', sizeof unit);
    for (k = 0; k <= CREDITS_NAME_MAX + 1; k++) {
        unit[k] = 0;
        entries[0] = credits_entry_start(unit);
        len = credits_build_session(out, ROOM, entries, 1);
        HOLDS((len != 0) == (k >= 1 && k <= CREDITS_NAME_MAX));
        HOLDS(len == 0 || credits_session_run(out, len).number == CREDITS_ACCEPTED);
        unit[k] = 'u';
    }
    entries[0] = credits_entry_start(NULL);
    REFUSES(a_session(entries, 1));
}

int main(void)
{
    inputs();
    the_longest_input();
    wrong_inputs();
    states();
    forms();
    the_longest_state();
    round_trips();
    details();
    sessions();
    unused();
    the_longest_sessions();
    printf("%lu claims about credits_sheet.h: %lu wrong\n", tried, wrong);
    return wrong != 0;
}
