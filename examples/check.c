/* May node N1, which holds 5 rd, spend 3? */
#include <credits.h>
#include <credits_sheet.h>
#include <stdio.h>

int main(void)
{
    const credits_field held[] = { credits_field_text(CREDITS_FIELD_SUBJECT, "N1"),
                                   credits_field_text(CREDITS_FIELD_UNIT, "rd"),
                                   credits_field_whole(CREDITS_FIELD_BALANCE, 5) };
    const credits_field asked[] = { credits_field_whole(CREDITS_FIELD_AMOUNT, 3) };
    uint8_t state[CREDITS_SHEET_MAX], input[CREDITS_INPUT_MAX];
    uint64_t state_len = credits_build_state(state, sizeof state, held, CREDITS_COUNT(held));
    uint64_t input_len = credits_build_input(input, sizeof input, asked, CREDITS_COUNT(asked));
    if (state_len == 0 || input_len == 0)
        return 1; /* the fields make no sheet */

    credits_answer a = credits_check(CREDITS_PROFILE_BALANCE, CREDITS_BALANCE_SPEND, state, state_len, input, input_len);
    printf("number %u: %s\n", a.number, credits_word(a.number));
    return 0;
}
