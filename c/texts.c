/* The names of rules and answers as static texts: those of fmp4_rule_name and fmp4_answer_name, which are proved to be
 * the program's. c/tests/texts.c compares them. */
#include "fmp4.h"

static const char *const rules[] = {
    "", "Truncated", "BadSize", "NoMoov", "SecondMoov", "StrayMdat", "MdatMissing", "TooLarge", "Depth", "Missing",
    "Twice", "Version", "FieldLength", "SamplesInMoov", "Unsupported", "BaseNotMoof", "EmptyDuration", "FlagsConflict",
    "UnknownTrack", "EntryIndex", "TooManySamples", "TimeRange", "RunPlace", "IndexRange", "SequenceEnd",
    "StreamTooLong"};

const char *fmp4_rule_text(uint32_t rule) {
    return rule < sizeof rules / sizeof *rules ? rules[rule] : "";
}

#define TEXT(name) case name: return #name

const char *fmp4_answer_text(uint32_t answer) {
    switch (answer) {
        TEXT(FMP4_OK);
        TEXT(FMP4_FULL);
        TEXT(FMP4_FAULT);
        TEXT(FMP4_NO_ROOM);
        TEXT(FMP4_OVER_LIMIT);
        TEXT(FMP4_NO_MEMORY);
        TEXT(FMP4_NO_RECORD);
        TEXT(FMP4_NOT_OPEN);
        TEXT(FMP4_CLOSED);
        TEXT(FMP4_IS_OPEN);
        TEXT(FMP4_ENDED);
        TEXT(FMP4_BAD_SAMPLES);
        TEXT(FMP4_BAD_BYTES);
        TEXT(FMP4_BAD_FLAGS);
        TEXT(FMP4_BAD_ROOM);
        TEXT(FMP4_BAD_LAYOUT);
        TEXT(FMP4_BAD_LISTING);
    }
    return "";
}
