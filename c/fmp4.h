/* fmp4.h: cuts the fragments of a fragmented MP4 stream (ISO/IEC 14496-12) into shorter ones, or checks or lists such a
 * stream.
 *
 * A stream is fed as it comes, in inputs of any size, and the output is taken from the front. So this does what
 * `fmp4 split --samples 15` does, but that no read and no write is checked; fmp4_cut_open has all limits of a fragment:
 *
 *     uint32_t recut(FILE *from, FILE *to, struct fmp4_report *report) {
 *         struct fmp4_stream stream = {0};
 *         unsigned char input[65536], out[131072];
 *         size_t len, at, taken, given = 0;
 *         uint32_t answer = fmp4_split_open(&stream, 15, 0, 0, 1 << 20, 1 << 18);
 *         if (answer != FMP4_OK) return answer;
 *         while (answer <= FMP4_FULL && (len = fread(input, 1, sizeof input, from)) > 0)
 *             for (at = 0; answer <= FMP4_FULL && (at < len || given == sizeof out); at += taken) {
 *                 answer = fmp4_feed_take(&stream, input + at, len - at, &taken, out, sizeof out, &given);
 *                 fwrite(out, 1, given, to);
 *             }
 *         answer = fmp4_finish(&stream, report);
 *         while (fmp4_take(&stream, out, sizeof out, &given) == FMP4_OK && given > 0) fwrite(out, 1, given, to);
 *         fmp4_close(&stream);
 *         return answer;
 *     }
 *
 * docs/fmp4.3 is the manual page, and c/examples/recut.c a whole program.
 *
 * Ownership. The caller owns struct fmp4_stream, inputs, buffers and reports; no call keeps a pointer to them. Between
 * two calls a struct fmp4_stream may be moved, as realloc moves it; a copy is no second stream. What an open stream
 * allocates is freed by fmp4_close. A buffer or an input of no bytes may be NULL; this header puts another pointer in
 * its place, so who calls the library without it gives one. No other pointer may be NULL, and no two that are given to
 * one call may overlap. A buffer that is written need not be initialised: no byte of one is read that the call hasn't
 * written. That is tested (by valgrind), and not proved: the proofs take each byte of a buffer for a number.
 *
 * Threads. Streams share nothing. Calls with different streams may run at once. Those with one stream come one at a
 * time, in whichever threads: who hands a stream on orders the calls, as by a lock, a queue or a thread's start or end.
 * No call may be made in a signal handler, or in the forked child of a process with threads. A call blocks on nothing,
 * and ends. None was seen to need more than 256 KiB of stack: threads of musl have 128 KiB if they aren't given more.
 *
 * The library runs on x86-64 and Linux, with glibc 2.14 or later or with musl, and this header wants C99 or C++11. A
 * stack trace ends within the library, which has neither frame pointers nor tables for unwinding: perf's
 * --call-graph=lbr, or a breakpoint at the exported function, shows who called.
 *
 * Memory comes from malloc, realloc and free, or from the functions that fmp4_set_memory is given: those of one
 * allocator, which align a block to each power of two up to 16 that divides its size. A stream asks for at most `limit`
 * bytes for its boxes and its output together, and some 20 KiB beside them for its state. No media is kept but in the
 * output that waits.
 */
#ifndef FMP4_H
#define FMP4_H

#include <stddef.h>
#include <stdint.h>

/* The version of this header: a million for its first number, a thousand for its second. fmp4_version() is that of the
 * library. A library of the same soname has all that an older header of it has. */
#define FMP4_VERSION 2000
#define FMP4_VERSION_TEXT "0.2.0"

#ifdef __cplusplus
extern "C" {
#define FMP4_RESTRICT __restrict
#else
#define FMP4_RESTRICT restrict
#endif

/* Of these calls gcc and clang warn where their answer isn't read. */
#ifdef __GNUC__
#define FMP4_MUST_READ __attribute__((warn_unused_result))
#else
#define FMP4_MUST_READ
#endif

/* A stream. It begins as zeros, and its fields are the library's: never read, change or copy them. */
struct fmp4_stream {
    void *state;
    uint32_t closed;
    uint64_t reserved[2];
};

/* What was counted of a stream, and which rule it breaks. */
struct fmp4_report {
    uint64_t fragments;   /* of a cut: the new ones whose moof was written; of a check or a listing of samples or
                             fragments: those of the stream that were accepted; of a listing of boxes: 0 */
    uint64_t samples;     /* those of accepted fragments; 2^64 - 1 where there are more */
    uint64_t media_bytes; /* the bytes of these samples */
    uint64_t peak;        /* the most bytes that the boxes of the stream had claimed at once, without the output */
    uint64_t offset;      /* where the box at fault begins in the stream; 0 also where there is no fault */
    uint32_t rule;        /* the number of the broken rule, 1 to 25 (docs/FORMAT.md); 0: no fault */
    uint32_t box_type;    /* the type of the box at fault, 'moof' as 0x6d6f6f66; 0 also where it isn't known */
    uint64_t has_box_type; /* 1 where it is known, else 0: four zero bytes are a type too */
    uint64_t reserved[3]; /* for what later libraries of the same soname report; begin a report as zeros */
};

/* How a stream is cut. Begin it as zeros, which ask for nothing. All limits hold together, but a sample that passes one
 * is a fragment by itself. */
struct fmp4_cut {
    uint32_t samples;     /* the most samples of a fragment, 1 to 1,000,000; 0 with a duration: 1,000,000 */
    uint32_t duration_ms; /* the most milliseconds that it lasts, in whole ticks of its track; 0: any number */
    uint64_t bytes;       /* its most bytes of media, up to 2^62; 0: any number */
    uint32_t flags;       /* a sum of enum fmp4_flags, but not of both FMP4_SYNC and FMP4_KEYFRAMES */
    uint32_t reserved[5]; /* zeros: for what later libraries of the same soname can be asked for */
};

/* A track fragment (traf) of a stream that is listed by records: its moof, its times and its samples. */
struct fmp4_fragment {
    uint64_t offset;      /* where its moof begins in the stream */
    uint64_t size;        /* the bytes of moof and mdat; 2^64 - 1 where the mdat goes to the end of the stream */
    uint64_t decode_time; /* at which it begins, in ticks of the track, also without samples */
    uint64_t duration;    /* of its samples together, in ticks */
    uint64_t media_bytes; /* of its samples together */
    uint32_t sequence;    /* the sequence_number of its moof */
    uint32_t track;       /* the track_ID */
    uint32_t timescale;   /* how many ticks of the track a second has */
    uint32_t samples;     /* how many it has */
    uint32_t is_sync;     /* 1 where its first sample is a sync sample, else 0, as without samples */
    uint32_t syncs;       /* how many of its samples are sync samples */
    uint64_t track_end;   /* when its track ended before, 0 before its first: decode_time less this is the gap */
    int64_t earliest;     /* the least composition time of its samples, less decode_time; 0 without samples */
    uint32_t handler;     /* the handler_type of the track, 'vide' as 0x76696465; 0 where it has none */
    uint32_t entries;     /* how many sample entries the track has */
};

/* The sizes of three of these, which an open compares with those of the library: FMP4_BAD_LAYOUT says that the caller
 * was compiled with another header, or declares them otherwise. */
#define FMP4_LAYOUT \
    ((uint32_t)(sizeof(struct fmp4_fragment) << 24 | sizeof(struct fmp4_stream) << 16 | sizeof(struct fmp4_report)))

/* Functions in the place of malloc, realloc and free, which are also given `opaque`, a pointer of the caller's. `take`
 * and `resize` may return NULL: there is no memory. No size is 0, and no block is NULL. */
struct fmp4_memory {
    void *(*take)(void *opaque, size_t size);
    void *(*resize)(void *opaque, void *block, size_t size);
    void (*release)(void *opaque, void *block);
    void *opaque;
};

/* What a call answers. */
enum fmp4_answer {
    FMP4_OK = 0,
    FMP4_FULL = 1,          /* take output first: nothing of the input was taken. Nothing is lost, feed it again */

    /* The stream has stopped for good. Each feed answers the same from then on, and so does fmp4_finish */
    FMP4_FAULT = 2,         /* it breaks a rule: the report says which. All output before the fault was written */
    FMP4_NO_ROOM = 3,       /* the output didn't fit the room, which was filled. What fitted can be taken: a prefix */
    FMP4_OVER_LIMIT = 4,    /* a moov or moof asks for more than the limit leaves. All output before it was written */
    FMP4_NO_MEMORY = 5,     /* malloc has none for it. The same */

    /* The stream goes on */
    FMP4_NO_RECORD = 6,     /* no record waits, and none was taken: feed more */

    /* Misuse: the call did nothing */
    FMP4_NOT_OPEN = 16,     /* before an open */
    FMP4_CLOSED = 17,       /* after fmp4_close */
    FMP4_IS_OPEN = 18,      /* an open of a stream that is open; fmp4_set_memory after one was opened */
    FMP4_ENDED = 19,        /* a feed or finish after fmp4_finish */
    FMP4_BAD_SAMPLES = 20,  /* samples not in 1 to 1,000,000, nor 0 with a duration */
    FMP4_BAD_BYTES = 21,    /* bytes above 2^62 */
    FMP4_BAD_FLAGS = 22,    /* flags that aren't known, or exclude each other; reserved words that aren't 0 */
    FMP4_BAD_ROOM = 23,     /* a room of 0 */
    FMP4_BAD_LAYOUT = 24,   /* structs of other sizes than the library's */
    FMP4_BAD_LISTING = 25   /* a listing that isn't known, a record of a stream that isn't listed by records, or bytes
                               of one that is */
};

/* Flags of a cut. Their sums are uint32_t. */
enum fmp4_flags {
    FMP4_INDEX = 1,         /* an sidx before the fragments that each run is cut into */
    FMP4_SYNC = 2,          /* a fragment also ends before a sync sample */
    FMP4_KEYFRAMES = 4      /* only before one whose predecessor in the run isn't one; not of fmp4_split_open */
};

/* Listings of fmp4_list_open. */
enum fmp4_listing {
    FMP4_SAMPLES = 1,       /* the lines of `fmp4 samples` */
    FMP4_FRAGMENTS = 2,     /* a line for each track, in the order of the moov, and one for each track fragment */
    FMP4_RECORDS = 3,       /* a record for each track fragment, for fmp4_next_fragment */
    FMP4_BOXES = 4          /* the lines of `fmp4 boxes`: only boxes are checked, and only the peak is counted */
};

/* Opens a stream that is cut into fragments of at most `samples` samples (1 to 1,000,000), and of at most `bytes`
 * bytes of media (0: any number; a larger sample is a fragment by itself). `limit`: the most bytes that it may take.
 * `room` of them are allocated at once for the output that waits, and what is left is for its boxes. A server asks for
 * 1 MiB, with a room of 256 KiB: real streams claim some 10 KiB for their boxes, and what is left for those of a
 * hostile one bounds how long a call may take (fmp4.3 has a table: with 64 MiB it may be seconds). Such a room, or one
 * of 64 KiB, serves where output is taken after each feed; with 8 MiB a feed takes 65,536 bytes at once, and what isn't
 * used of them stays untouched. What comes at once must fit what is free, or the stream ends with FMP4_NO_ROOM: a moov
 * (most have less than 64 KiB; one with a picture in it may have more than such a room, and 16 MiB are allowed); the
 * head of a new fragment, 100 bytes and 16 a sample (108 where it has 4 GiB of media); an index, up to 786,460 bytes,
 * with the head after it; and the heads of all samples without bytes that follow each other. A stream that was closed
 * can be opened again.
 *   FMP4_OVER_LIMIT: room is more than limit; FMP4_NO_MEMORY; FMP4_IS_OPEN; FMP4_BAD_LAYOUT, _SAMPLES, _BYTES, _FLAGS,
 *   _ROOM */
FMP4_MUST_READ static inline uint32_t fmp4_split_open(struct fmp4_stream *stream, uint32_t samples, uint64_t bytes,
                                                      uint32_t flags, uint64_t limit, size_t room);

/* The same with all limits of a fragment; `limit` and `room` are as those above.
 *   As fmp4_split_open */
FMP4_MUST_READ static inline uint32_t fmp4_cut_open(struct fmp4_stream *stream, const struct fmp4_cut *cut,
                                                    uint64_t limit, size_t room);

/* Opens a stream that is only checked and counted. It has no output, and each input is taken as a whole.
 *   FMP4_NO_MEMORY; FMP4_IS_OPEN; FMP4_BAD_LAYOUT */
FMP4_MUST_READ static inline uint32_t fmp4_check_open(struct fmp4_stream *stream, uint64_t limit);

/* Opens a stream that is checked and listed: the listing is its output, and what a fragment adds to it comes at once,
 * with the header of its mdat. `limit` and `room` are as those of a cut; what comes at once must fit the room, which is
 * 88 bytes for each record, and up to 340 for each line. To list the fragments that a cut writes, feed its output to a
 * stream that is listed. A listing of boxes has a line of up to 80 bytes for a box as soon as its header came; a moov
 * or moof is listed once it is whole, with the boxes in it: up to 6 bytes at once for each of its own.
 *   FMP4_OVER_LIMIT: room is more than limit; FMP4_NO_MEMORY; FMP4_IS_OPEN; FMP4_BAD_LAYOUT, _LISTING, _ROOM */
FMP4_MUST_READ static inline uint32_t fmp4_list_open(struct fmp4_stream *stream, enum fmp4_listing listing,
                                                     uint64_t limit, size_t room);

/* What these four call in the library; `layout` is FMP4_LAYOUT. */
FMP4_MUST_READ uint32_t fmp4_split_open_as(struct fmp4_stream *stream, uint32_t layout, uint32_t samples,
                                           uint64_t bytes, uint32_t flags, uint64_t limit, size_t room);
FMP4_MUST_READ uint32_t fmp4_cut_open_as(struct fmp4_stream *FMP4_RESTRICT stream, uint32_t layout,
                                         const struct fmp4_cut *FMP4_RESTRICT cut, uint64_t limit, size_t room);
FMP4_MUST_READ uint32_t fmp4_check_open_as(struct fmp4_stream *stream, uint32_t layout, uint64_t limit);
FMP4_MUST_READ uint32_t fmp4_list_open_as(struct fmp4_stream *stream, uint32_t layout, uint32_t listing,
                                          uint64_t limit, size_t room);

/* Feeds the next `len` bytes of the stream, or the first *taken of them: go on with the rest. A cut takes at most a
 * 128th of what is free in the room at once (a 512th with an index), a byte at the least, and nothing (FMP4_FULL)
 * while more than half of the room is filled; so does a listing, a 512th where it is of samples, and a 32nd where it is
 * of records. Of a longer input it takes what ends with an mdat, if one ends within so many bytes: a fragment that is
 * fed whole costs less. Where this answers FMP4_OK, FMP4_FULL or FMP4_FAULT, all output that the bytes so far determine
 * waits to be taken, but for what was taken. *taken is 0 where it misuses the stream, and after a stop.
 *   FMP4_FULL; FMP4_FAULT, FMP4_NO_ROOM, FMP4_OVER_LIMIT, FMP4_NO_MEMORY; FMP4_NOT_OPEN, FMP4_CLOSED, FMP4_ENDED */
FMP4_MUST_READ uint32_t fmp4_feed(struct fmp4_stream *FMP4_RESTRICT stream, const uint8_t *FMP4_RESTRICT input,
                                  size_t len, size_t *FMP4_RESTRICT taken);

/* As fmp4_take and then fmp4_feed, and the output of the input follows in `out` at once, without a copy in the room:
 * *given says how many bytes of output, less than `size` only where no more wait; what doesn't fit waits. So a loop
 * over an input sees FMP4_FULL only where `out` is smaller than what waits, and calls again. What is free in `out` once
 * it has what waits counts with what is free in the room: of both together a share of the input is taken. An `out` of
 * twice the input serves best: what doesn't fit is copied once more. The call that stops with FMP4_NO_ROOM has filled
 * `out` and the room. A stream that has stopped still gives what waits. What lies after the *given bytes in `out` may
 * change. A stream that is listed by records is fed by fmp4_feed alone.
 *   As fmp4_feed; FMP4_BAD_LISTING; *given is 0 where it misuses the stream */
FMP4_MUST_READ uint32_t fmp4_feed_take(struct fmp4_stream *FMP4_RESTRICT stream, const uint8_t *FMP4_RESTRICT input,
                                       size_t len, size_t *FMP4_RESTRICT taken, uint8_t *FMP4_RESTRICT out,
                                       size_t size, size_t *FMP4_RESTRICT given);

/* Copies output to `out`: *taken says how many bytes, less than `len` only where no more wait. After a stop and after
 * fmp4_finish too, until the stream is closed. Of a stream that is listed by records it takes nothing.
 *   FMP4_NOT_OPEN, FMP4_CLOSED, FMP4_BAD_LISTING */
uint32_t fmp4_take(struct fmp4_stream *FMP4_RESTRICT stream, uint8_t *FMP4_RESTRICT out, size_t len,
                   size_t *FMP4_RESTRICT taken);

/* Copies output to `out`, which still waits then: *count says how many bytes, less than `len` only where no more wait.
 * So one buffer serves all streams of a thread: peek, send what goes, and skip that.
 *   As fmp4_take */
uint32_t fmp4_peek(struct fmp4_stream *FMP4_RESTRICT stream, uint8_t *FMP4_RESTRICT out, size_t len,
                   size_t *FMP4_RESTRICT count);

/* Drops `len` bytes of the output that waits, from its front: *count says how many, fewer only where no more wait.
 *   As fmp4_take */
uint32_t fmp4_skip(struct fmp4_stream *FMP4_RESTRICT stream, size_t len, size_t *FMP4_RESTRICT count);

/* Takes the next record of a stream that is listed by records. After a stop and after fmp4_finish too. Where fmp4_feed
 * answers FMP4_FULL, take records, until FMP4_NO_RECORD: after FMP4_NO_ROOM the front of a record can wait for good,
 * so fmp4_pending need not come to 0. No other call takes records, or a part of one.
 *   FMP4_NO_RECORD: none waits; FMP4_NOT_OPEN, FMP4_CLOSED, FMP4_BAD_LISTING. The record is left as it was */
FMP4_MUST_READ uint32_t fmp4_next_fragment(struct fmp4_stream *FMP4_RESTRICT stream,
                                           struct fmp4_fragment *FMP4_RESTRICT fragment);

/* Says how many bytes of output wait.
 *   FMP4_NOT_OPEN, FMP4_CLOSED: *count is 0 */
uint32_t fmp4_pending(struct fmp4_stream *FMP4_RESTRICT stream, size_t *FMP4_RESTRICT count);

/* Says what was counted so far, and the fault where the stream has stopped for one; after fmp4_finish, what that
 * reported.
 *   FMP4_NOT_OPEN, FMP4_CLOSED: the report is left as it was */
uint32_t fmp4_totals(struct fmp4_stream *FMP4_RESTRICT stream, struct fmp4_report *FMP4_RESTRICT report);

/* The stream has ended: FMP4_OK only where it breaks no rule. What the stream had claimed is freed; what waits can
 * still be taken.
 *   FMP4_FAULT, or as it stopped before; FMP4_NOT_OPEN, FMP4_CLOSED, FMP4_ENDED: the report is left as it was */
FMP4_MUST_READ uint32_t fmp4_finish(struct fmp4_stream *FMP4_RESTRICT stream,
                                    struct fmp4_report *FMP4_RESTRICT report);

/* Sets the limit of a stream, but no lower than what it takes now: *takes says how many bytes that is, its room among
 * them. A shortage is final: a stream that stops with FMP4_OVER_LIMIT doesn't go on, even where a moment later there is
 * enough. So a server gives each stream a limit of its own when it opens it, of 1 MiB beside its room. Streams that
 * are to share one limit: before each is fed it gets what it takes and all that is free, and afterwards a limit of 0,
 * which says what it takes now. After a stop and after fmp4_finish the limit stays.
 *   FMP4_NOT_OPEN, FMP4_CLOSED: *takes is 0 */
uint32_t fmp4_set_limit(struct fmp4_stream *FMP4_RESTRICT stream, uint64_t limit, uint64_t *FMP4_RESTRICT takes);

/* Begins another stream, as the one before was opened, with the limit that it has now and with its room: as fmp4_close
 * and the same open, but nothing is allocated. Output that waits is lost.
 *   FMP4_NOT_OPEN, FMP4_CLOSED */
uint32_t fmp4_reset(struct fmp4_stream *stream);

/* Frees all. Output that waits is lost.
 *   FMP4_NOT_OPEN, FMP4_CLOSED */
uint32_t fmp4_close(struct fmp4_stream *stream);

/* Sets where all streams take their memory, before the first of them is opened, and while no other thread makes a call.
 * The functions are called in the threads of the streams' calls, and at once where these are; a block is resized and
 * released only by calls with the stream that took it. So an allocator for each stream finds its own by a thread-local
 * variable that the caller sets before a call.
 *   FMP4_IS_OPEN: a stream has taken memory, even if it was closed since. Nothing is set */
FMP4_MUST_READ uint32_t fmp4_set_memory(const struct fmp4_memory *memory);

/* The name of a rule, such as "Truncated", and of an answer, such as "FMP4_FULL": static texts, "" where none has this
 * number. */
const char *fmp4_rule_text(uint32_t rule);
const char *fmp4_answer_text(uint32_t answer);

/* Writes the name of a rule and a zero: at most `len` bytes. Returns the length of the name without the zero, 0 where
 * no rule has this number. 16 bytes are enough. */
size_t fmp4_rule_name(uint32_t rule, char *name, size_t len);

/* The same of an answer. 17 bytes are enough. */
size_t fmp4_answer_name(uint32_t answer, char *name, size_t len);

/* The version of the library, as FMP4_VERSION. */
uint32_t fmp4_version(void);

/* So few bytes are flags in the wrong place: clang warns of them, and gcc where it optimizes. */
#define FMP4_ARE_FLAGS(bytes) ((bytes) >= 1 && (bytes) <= 7)
#ifdef __clang__
#pragma clang diagnostic push
#pragma clang diagnostic ignored "-Wgcc-compat"
static inline uint32_t fmp4_split_open(struct fmp4_stream *stream, uint32_t samples, uint64_t bytes, uint32_t flags,
                                       uint64_t limit, size_t room)
    __attribute__((diagnose_if(FMP4_ARE_FLAGS(bytes), "bytes of media that seem to be flags", "warning")));
#pragma clang diagnostic pop
#elif defined __GNUC__
FMP4_MUST_READ uint32_t fmp4_split_open_warned(struct fmp4_stream *stream, uint32_t layout, uint32_t samples,
                                               uint64_t bytes, uint32_t flags, uint64_t limit, size_t room)
    __asm__("fmp4_split_open_as") __attribute__((warning("bytes of media that seem to be flags")));
#endif
static inline uint32_t fmp4_split_open(struct fmp4_stream *stream, uint32_t samples, uint64_t bytes, uint32_t flags,
                                       uint64_t limit, size_t room) {
#if defined __GNUC__ && !defined __clang__
    if (__builtin_constant_p(bytes) && FMP4_ARE_FLAGS(bytes))
        return fmp4_split_open_warned(stream, FMP4_LAYOUT, samples, bytes, flags, limit, room);
#endif
    return fmp4_split_open_as(stream, FMP4_LAYOUT, samples, bytes, flags, limit, room);
}
static inline uint32_t fmp4_cut_open(struct fmp4_stream *stream, const struct fmp4_cut *cut, uint64_t limit,
                                     size_t room) {
    return fmp4_cut_open_as(stream, FMP4_LAYOUT, cut, limit, room);
}
static inline uint32_t fmp4_check_open(struct fmp4_stream *stream, uint64_t limit) {
    return fmp4_check_open_as(stream, FMP4_LAYOUT, limit);
}
static inline uint32_t fmp4_list_open(struct fmp4_stream *stream, enum fmp4_listing listing, uint64_t limit,
                                      size_t room) {
    return fmp4_list_open_as(stream, FMP4_LAYOUT, (uint32_t)listing, limit, room);
}

/* NULL for no bytes: the functions of the library want a pointer. */
FMP4_MUST_READ static inline uint32_t fmp4_feed_any(struct fmp4_stream *stream, const uint8_t *input, size_t len,
                                                    size_t *taken) {
    return fmp4_feed(stream, len ? input : (const uint8_t *)"", len, taken);
}
FMP4_MUST_READ static inline uint32_t fmp4_feed_take_any(struct fmp4_stream *stream, const uint8_t *input, size_t len,
                                                         size_t *taken, uint8_t *out, size_t size, size_t *given) {
    uint8_t none = 0;
    return fmp4_feed_take(stream, len ? input : (const uint8_t *)"", len, taken, size ? out : &none, size, given);
}
static inline uint32_t fmp4_take_any(struct fmp4_stream *stream, uint8_t *out, size_t len, size_t *taken) {
    uint8_t none = 0;
    return fmp4_take(stream, len ? out : &none, len, taken);
}
static inline uint32_t fmp4_peek_any(struct fmp4_stream *stream, uint8_t *out, size_t len, size_t *count) {
    uint8_t none = 0;
    return fmp4_peek(stream, len ? out : &none, len, count);
}
static inline size_t fmp4_rule_name_any(uint32_t rule, char *name, size_t len) {
    char none = 0;
    return fmp4_rule_name(rule, len ? name : &none, len);
}
static inline size_t fmp4_answer_name_any(uint32_t answer, char *name, size_t len) {
    char none = 0;
    return fmp4_answer_name(answer, len ? name : &none, len);
}
#define fmp4_feed fmp4_feed_any
#define fmp4_feed_take fmp4_feed_take_any
#define fmp4_take fmp4_take_any
#define fmp4_peek fmp4_peek_any
#define fmp4_rule_name fmp4_rule_name_any
#define fmp4_answer_name fmp4_answer_name_any

#ifdef __cplusplus
}
#endif

#endif
