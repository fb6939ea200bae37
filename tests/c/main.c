/* Every function of the library, called from C: its answers, its refusals, and each slice at the lengths where it changes its answer. */
#include "check.h"

#include <stdio.h>
#include <string.h>

#define TEXT(name) #name
#define TEXT_OF(macro) TEXT(macro)

/* The symbol of the layout is named after its number. */
static void test_layout(void) {
    char name[sizeof TEXT_OF(SALT_LAYOUT)];
    snprintf(name, sizeof name, "salt_layout_%08x", (unsigned)SALT_LAYOUT());
    CHECK(strcmp(name, TEXT_OF(SALT_LAYOUT)) == 0);
}

static const struct {
    const char *name;
    void (*test)(void);
} groups[] = {
    {"packets", test_packets}, {"whitener", test_whitener}, {"constellation", test_constellation},
    {"pilots", test_pilots},   {"symbols", test_symbols},   {"codes", test_codes},
    {"words", test_words},     {"frames", test_frames},     {"session", test_session},
    {"desk", test_desk},       {"reports", test_reports},   {"lengths", test_lengths},
    {"layout", test_layout},   {"interleaver", test_interleaver},
};

int main(void) {
    unsigned passed = 0, failed = 0;
    for (size_t i = 0; i < sizeof groups / sizeof groups[0]; i++) {
        unsigned long held = checks_passed, not_held = checks_failed;
        groups[i].test();
        printf("%s: %lu checks held, %lu didn't\n", groups[i].name, checks_passed - held, checks_failed - not_held);
        *(checks_failed == not_held && checks_passed > held ? &passed : &failed) += 1;
    }
    printf("%u passed, %u failed\n", passed, failed);
    return failed == 0 ? 0 : 1;
}
