/* The library's words: a refusal's sentence, and the version. Rattle has no strings, so these two are C. */
#include "onion.h"

/* By number. The sentences are the specification's. */
static const char *const sentences[] = {
    "accepted",
    "history shorter than 40 bytes (creation: 60) or over the limit",
    "header signature, version, flags or page size wrong, or its original's length over the limit",
    "header checksum wrong",
    "the lent original's length is not the header's",
    "whole history: address below 40, past the buffer, size not 20 + 20n, n over 1,024, or a signature, version, reserved "
    "byte or checksum in it wrong, location checksums included",
    "revision above n and not 2^64 - 1",
    "record: address below 60, size not its layout's, reaches past the whole history's start, or any field against the "
    "layout; revision not k; parent not below k; page size not the header's; a physical address below 60 or a page "
    "reaching past the record's start",
    "record or entry checksum wrong",
    "page checksum wrong",
    "read or look-up outside the logical size; look-up address not a multiple of p; write starting past the size",
    "lock set",
    "branching off and the revision isn't the newest",
    "session ended or not of this history: lock clear; end or count not the history's; count over 1,023; parent over the "
    "count, or under it with branching off; its pages over 256, repeated, not multiples of p or not below its size; size "
    "over the limit; its pages past the buffer; size below its parent's logical size (for parent 0 the header's original "
    "length)",
    "over 256 touched pages or 4,096 merged entries would result",
    "the bytes to be stored do not fit in the buffer",
    "time, name or comment against the layout",
    "creation: page size wrong or original over the limit",
    "1,024 revisions stand",
    "write would end past 16,777,216",
    "look-up of a page not in the index that doesn't lie, for its length, within the original",
};

const char *onion_sentence(uint64_t number)
{
    return number < sizeof sentences / sizeof *sentences ? sentences[number] : "unknown number";
}

uint32_t onion_version(void)
{
    return ONION_VERSION;
}
