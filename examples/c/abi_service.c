/* The same as abi.c of what a program takes from fulwethi_service.h, beside that of fulwethi.h, into itself. It stands in abi_service.txt. */
#include "fulwethi_service.h"
#include <stdio.h>

#define SIZE(type) printf("struct %s: %zu bytes, aligned to %zu\n", #type, sizeof(struct type), _Alignof(struct type))
#define AT(type, member) printf("  %s at %zu, %zu bytes\n", #member, offsetof(struct type, member), sizeof(((struct type *)0)->member))

static void sizes(void) {
    SIZE(fulwethi_service); AT(fulwethi_service, ptr);
    SIZE(fulwethi_client); AT(fulwethi_client, ptr);
    SIZE(fulwethi_inbox); AT(fulwethi_inbox, ptr);
    SIZE(fulwethi_note); AT(fulwethi_note, ticket); AT(fulwethi_note, number); AT(fulwethi_note, to); AT(fulwethi_note, outcome);
    AT(fulwethi_note, reason); AT(fulwethi_note, unused);
    SIZE(fulwethi_message); AT(fulwethi_message, from); AT(fulwethi_message, to); AT(fulwethi_message, pgn); AT(fulwethi_message, unused);
    AT(fulwethi_message, len);
    SIZE(fulwethi_news); AT(fulwethi_news, number); AT(fulwethi_news, kind); AT(fulwethi_news, station);
}

int main(void) {
    sizes();
    for (uint32_t code = 0; code <= 255; code++) {
        const char *name = fulwethi_service_code_name(code);
        if (name[0] && !fulwethi_code_name(code)[0]) printf("code %u %s\n", code, name);
    }
    return 0;
}
