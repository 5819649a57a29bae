/* stops < STREAM: what a limit, a room and a cut-off stream give. In each case the output is a prefix of the whole. */
#include "tests.h"

int main(void) {
    struct bytes in = read_all(stdin), whole = {0}, part = {0};
    struct cut cut = {2, 0, 0, 512u << 20, 4u << 20, 1316, 777, 0};
    struct result all = run(&cut, in.at, in.len, &whole);
    WANT(all.open == 0 && all.feed == 0 && all.finish == 0 && all.report.rule == 0 && all.fed == in.len);
    unsigned counts[6] = {0};
    /* each limit from the room on until it is enough: what is enough is the peak */
    for (cut.limit = cut.room = 8192; ; cut.limit += 1 + all.report.peak / 97) {
        cut.room = 8192;
        part.len = 0;
        struct result r = run(&cut, in.at, in.len, &part);
        WANT(part.len <= whole.len && memcmp(part.at, whole.at, part.len) == 0);
        WANT(r.open == 0 && r.feed < 6 && r.finish == r.feed);
        counts[r.feed]++;
        if (r.feed == FMP4_OVER_LIMIT) WANT(cut.limit < cut.room + all.report.peak && r.report.peak <= cut.limit - cut.room);
        if (r.feed == FMP4_OK) { WANT(cut.limit >= cut.room + all.report.peak && part.len == whole.len); break; }
        if (r.feed == FMP4_NO_ROOM) break;
    }
    /* each small room, with output taken and without: nothing before it is lost, and no more waits than the room */
    for (size_t room = 1; room < 3000; room += 1 + room / 7)
        for (cut.take = 0; cut.take <= 777; cut.take += 777) {
            cut.limit = 512u << 20;
            cut.room = room;
            part.len = 0;
            struct result r = run(&cut, in.at, in.len, &part);
            WANT(part.len <= whole.len && memcmp(part.at, whole.at, part.len) == 0);
            WANT(r.feed == FMP4_OK || r.feed == FMP4_NO_ROOM);
            if (!cut.take) WANT(part.len <= room);
            if (r.feed == FMP4_NO_ROOM && !cut.take) WANT(part.len == room);
            counts[r.feed]++;
        }
    /* cut off at every 211th byte: what was written is the front of the whole */
    for (size_t len = 0; len < in.len; len += 211) {
        cut.room = 4u << 20;
        cut.take = 777;
        part.len = 0;
        struct result r = run(&cut, in.at, len, &part);
        WANT(part.len <= whole.len && memcmp(part.at, whole.at, part.len) == 0);
        WANT(r.feed == 0 && (r.finish == FMP4_OK || (r.finish == FMP4_FAULT && r.report.rule > 0 && r.report.offset < len + 1)));
        counts[r.finish]++;
    }
    printf("stops: ok %u, fault %u, no room %u, over the limit %u\n", counts[0], counts[2], counts[3], counts[4]);
    return 0;
}
