/* Calls every function of liburgyelpat.a and of its header as a C program does, accepted and refused, and compares answers
 * and memory. */
#include "cases.h"
#include "lent.h"
#include "urgyelpat.h"
#include <stdio.h>

static void answers_taken_apart(void)
{
    called("code", "a refusal with the largest place", BETWEEN_CANARIES);
    answered(urgyelpat_code(ANSWER(5, 1024)), 5);
    called("place", "a refusal with the largest place", BETWEEN_CANARIES);
    answered(urgyelpat_place(ANSWER(5, 1024)), 1024);
    called("is_pair", "done, a refusal, the first pair", BETWEEN_CANARIES);
    answered((uint64_t)urgyelpat_is_pair(0), 0);
    answered((uint64_t)urgyelpat_is_pair(ANSWER(8, 1023)), 0);
    answered((uint64_t)urgyelpat_is_pair(ANSWER(4096 + 1, 0)), 1);
    called("twin_p", "the last pair", BETWEEN_CANARIES);
    answered(urgyelpat_twin_p(ANSWER(4096 + 1023, 1022)), 1022);
    called("twin_q", "the last pair", BETWEEN_CANARIES);
    answered(urgyelpat_twin_q(ANSWER(4096 + 1023, 1022)), 1023);
}

int main(void)
{
    watch_the_pages();
    answers_taken_apart();
    lblt_cases();
    tray_cases();
    list_cases();
    cholesky_cases();
    floored_cases();
    teaching_cases();
    udu_cases();
    twin_cases();
    packed_cases();
    handheld_cases();
    printf("%lu calls, %lu wrong\n", calls_made, calls_wrong);
    return calls_wrong != 0;
}
