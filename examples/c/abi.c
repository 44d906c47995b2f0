/* Prints what a program takes from fulwethi.h into itself when it is compiled: the sizes and places of structs, and the numbers. What the
 * library is to export stands with it in abi.txt. ./test c compares both. */
#include "fulwethi.h"
#include <stdio.h>

#define SIZE(type) printf("struct %s: %zu bytes, aligned to %zu\n", #type, sizeof(struct type), _Alignof(struct type))
#define AT(type, member) printf("  %s at %zu, %zu bytes\n", #member, offsetof(struct type, member), sizeof(((struct type *)0)->member))
#define NUMBER(name) printf("%s %d\n", #name, (int)FULWETHI_##name)

static void sizes(void) {
    SIZE(fulwethi); AT(fulwethi, ptr);
    SIZE(fulwethi_frame); AT(fulwethi_frame, id); AT(fulwethi_frame, len); AT(fulwethi_frame, bytes);
    SIZE(fulwethi_event); AT(fulwethi_event, kind); AT(fulwethi_event, from); AT(fulwethi_event, to); AT(fulwethi_event, pgn);
    AT(fulwethi_event, number); AT(fulwethi_event, len); AT(fulwethi_event, outcome); AT(fulwethi_event, reason);
    SIZE(fulwethi_counts); AT(fulwethi_counts, frames); AT(fulwethi_counts, malformed); AT(fulwethi_counts, given);
    AT(fulwethi_counts, acknowledged); AT(fulwethi_counts, broadcast); AT(fulwethi_counts, aborted); AT(fulwethi_counts, timed_out);
    AT(fulwethi_counts, overrun); AT(fulwethi_counts, cancelled); AT(fulwethi_counts, unreachable);
    SIZE(fulwethi_lane); AT(fulwethi_lane, pending); AT(fulwethi_lane, in_doubt);
}

static void numbers(void) {
    NUMBER(GIVEN); NUMBER(OUTCOME);
    for (uint32_t outcome = 1; outcome <= FULWETHI_UNREACHABLE; outcome++) printf("outcome %u %s\n", outcome, fulwethi_outcome_name(outcome));
    for (uint32_t code = 0; code <= 255; code++) {
        if (fulwethi_code_name(code)[0]) printf("code %u %s\n", code, fulwethi_code_name(code));
    }
}

int main(void) {
    sizes();
    numbers();
    return 0;
}
