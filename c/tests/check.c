/* check INPUT < STREAM: what `fmp4 check` prints, and its status, by a stream that is checked INPUT bytes at a time. */
#include "tests.h"

enum { COPY = 65536 };

int main(int argc, char **argv) {
    struct bytes in = read_all(stdin), none = {0};
    struct cut cut = {0, 0, 0, 512u << 20, 0, argc > 1 ? strtoul(argv[1], NULL, 10) : COPY, 1, 0};
    struct result r = run(&cut, in.at, in.len, &none);
    free(in.at);
    WANT(r.open == FMP4_OK && none.len == 0);
    if (r.finish == FMP4_FAULT) {
        print_fault(&r.report);
        return 2;
    }
    WANT(r.finish == FMP4_OK && r.fed == in.len);
    printf("fragments=%llu samples=%llu media=%llu held=%llu\n", (unsigned long long)r.report.fragments, (unsigned long long)r.report.samples,
           (unsigned long long)r.report.media_bytes, (unsigned long long)(COPY + r.report.peak));
    return 0;
}
