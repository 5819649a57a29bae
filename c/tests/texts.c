/* The static texts of rules and answers are the names that the library writes: each number up to a thousand, and some
 * beyond. */
#include "tests.h"

static unsigned rules, answers;

static void compare(uint32_t number) {
    char name[17];
    size_t len = fmp4_rule_name(number, name, sizeof name);
    WANT(len < sizeof name && strlen(name) == len && strcmp(fmp4_rule_text(number), name) == 0);
    rules += len > 0;
    len = fmp4_answer_name(number, name, sizeof name);
    WANT(len < sizeof name && strlen(name) == len && strcmp(fmp4_answer_text(number), name) == 0);
    answers += len > 0;
}

int main(void) {
    for (uint32_t number = 0; number <= 1000; number++) compare(number);
    for (uint32_t number = 1u << 31; number > 1000; number /= 2) compare(number), compare(number + 1);
    compare(UINT32_MAX);
    WANT(rules == 25 && answers == 17);
    printf("texts: %u rules and %u answers, as the library writes them\n", rules, answers);
    return 0;
}
