/*
 * Whether the archives are of these headers, and the names of the refusals. A test of the Rust package holds its own
 * names to the same file.
 */
#include <stdio.h>

#include "presscurlew.h"
#include "presscurlew_plain.h"

int main(void) {
    if (presscurlew_version() != PRESSCURLEW_VERSION_NUMBER || presscurlew_layout() != PRESSCURLEW_LAYOUT ||
        presscurlew_plain_layout() != PRESSCURLEW_PLAIN_LAYOUT) {
        puts("the archives are not of these headers");
        return 1;
    }
    puts("the archives are of these headers");
    for (uint32_t number = 0; number <= 16; number++)
        printf("%2u  gate %-12s  rules %s\n", (unsigned)number, presscurlew_refusal_name(number),
               presscurlew_rule_refusal_name(number));
    return 0;
}
