/*
 * The revision store: revisions of one binary file, kept in one history beside it.
 *
 * The original is never changed. The history is a buffer that the caller owns: usually a file's bytes in memory, or a
 * mapped file. It holds a header, copied pages, a record for each revision and the whole history. The store allocates
 * nothing, keeps nothing between calls and touches no byte but those it is lent.
 *
 * Every call is total. It answers ONION_ACCEPTED (0), or the number of the first reason to refuse in the order that
 * stands with the call. A refusal changes no lent byte, and a session that was lent is handed back unchanged.
 *
 * What the caller owes:
 *   - a pointer and the length behind it describe bytes that stand for the whole call;
 *   - a pointer is NULL at most where its length is 0;
 *   - a history that a call changes, and an output buffer, overlap no other argument;
 *   - a session is used once: each call takes it by value and gives the one to go on with.
 *
 * Compile with -I include and link with target/lib/libonion.a or target/lib/libonion.so, which `make lib` builds.
 * host/c_example has two small programs that use most of it.
 */
#ifndef ONION_H
#define ONION_H

#include <stdbool.h>
#include <stddef.h>
#include <stdint.h>

#ifdef __cplusplus
extern "C" {
#endif

/* ---- Version ----------------------------------------------------------------------------------------------------- */

/* Of this header. onion_version() tells that of the library: its upper sixteen bits change when a program has to. */
#define ONION_VERSION_MAJOR 1
#define ONION_VERSION_MINOR 0
#define ONION_VERSION ((uint32_t)ONION_VERSION_MAJOR << 16 | (uint32_t)ONION_VERSION_MINOR)

/* ---- Sizes allowed ----------------------------------------------------------------------------------------------- */

/* The page size is a power of two from 16 to 4,096. */
#define ONION_PAGE_SIZE_LEAST 16
#define ONION_PAGE_SIZE_MOST 4096

/* The original, a logical size and the history buffer have at most 16,777,216 bytes each. */
#define ONION_SIZE_MOST 16777216

/* A history holds at most 1,024 revisions. */
#define ONION_REVISIONS_MOST 1024

/* A record has at most 4,096 index entries. */
#define ONION_ENTRIES_MOST 4096

/* A session touches at most 256 pages. */
#define ONION_TOUCHED_MOST 256

/* A user name has 1 to 64 bytes and a comment 1 to 256, with the closing zero. */
#define ONION_NAME_MOST 64
#define ONION_COMMENT_MOST 256

/* A time is `YYYYMMDDThhmmssZ`, sixteen bytes with no closing zero. */
#define ONION_TIME_LENGTH 16

/* The header's length, and the length of a history that was just created. */
#define ONION_HEADER_LENGTH 40
#define ONION_CREATED_LENGTH 60

/* The most bytes that onion_list gives. */
#define ONION_LIST_MOST 169068

/* Asks for the newest revision, which is 0 (the original) where none was committed. */
#define ONION_NEWEST UINT64_MAX

/* ---- Refusal numbers --------------------------------------------------------------------------------------------- */

enum onion_refusal {
    /* The call is accepted. */
    ONION_ACCEPTED = 0,

    /* history shorter than 40 bytes (creation: 60) or over the limit */
    ONION_REFUSED_HISTORY_LENGTH = 1,

    /* header signature, version, flags or page size wrong, or its original's length over the limit */
    ONION_REFUSED_HEADER = 2,

    /* header checksum wrong */
    ONION_REFUSED_HEADER_CHECKSUM = 3,

    /* the lent original's length is not the header's */
    ONION_REFUSED_ORIGINAL_LENGTH = 4,

    /* whole history: address below 40, past the buffer, size not 20 + 20n, n over 1,024, or a signature, version,
       reserved byte or checksum in it wrong, location checksums included */
    ONION_REFUSED_WHOLE_HISTORY = 5,

    /* revision above n and not 2^64 - 1 */
    ONION_REFUSED_REVISION = 6,

    /* record: address below 60, size not its layout's, reaches past the whole history's start, or any field against
       the layout; revision not k; parent not below k; page size not the header's; a physical address below 60 or a
       page reaching past the record's start */
    ONION_REFUSED_RECORD = 7,

    /* record or entry checksum wrong */
    ONION_REFUSED_RECORD_CHECKSUM = 8,

    /* page checksum wrong */
    ONION_REFUSED_PAGE_CHECKSUM = 9,

    /* read or look-up outside the logical size; look-up address not a multiple of p; write starting past the size */
    ONION_REFUSED_OUTSIDE = 10,

    /* lock set */
    ONION_REFUSED_LOCKED = 11,

    /* branching off and the revision isn't the newest */
    ONION_REFUSED_NOT_NEWEST = 12,

    /* session ended or not of this history: lock clear; end or count not the history's; count over 1,023; parent over
       the count, or under it with branching off; its pages over 256, repeated, not multiples of p or not below its
       size; size over the limit; its pages past the buffer; size below its parent's logical size (for parent 0 the
       header's original length) */
    ONION_REFUSED_SESSION = 13,

    /* over 256 touched pages or 4,096 merged entries would result */
    ONION_REFUSED_TOO_MANY_PAGES = 14,

    /* the bytes to be stored do not fit in the buffer */
    ONION_REFUSED_NO_ROOM = 15,

    /* time, name or comment against the layout */
    ONION_REFUSED_TEXT = 16,

    /* creation: page size wrong or original over the limit */
    ONION_REFUSED_CREATION = 17,

    /* 1,024 revisions stand */
    ONION_REFUSED_TOO_MANY_REVISIONS = 18,

    /* write would end past 16,777,216 */
    ONION_REFUSED_PAST_LIMIT = 19,

    /* look-up of a page not in the index that doesn't lie, for its length, within the original */
    ONION_REFUSED_NOT_STORED = 20
};

/* ---- Answers ----------------------------------------------------------------------------------------------------- */

/*
 * A session. Make one with onion_open and hand it on; its fields are for reading. All zeros is the ended session,
 * which fits no history.
 */
typedef struct onion_session {
    uint64_t end;    /* the committed end it was opened at; its own page i lies at end + i x page size */
    uint64_t count;  /* the revisions that stood when it was opened */
    uint64_t parent; /* the revision it was opened on */
    uint64_t size;   /* the logical size so far */
    uint64_t n;      /* how many pages it has touched */
    uint32_t pages[ONION_TOUCHED_MOST]; /* their addresses, in the order of first touch; slots from n on mean nothing */
} onion_session;

/* A session call's number, and the session after the call. */
typedef struct onion_answer {
    uint64_t number;
    onion_session session;
} onion_answer;

/* Where a page lies: all but the number are zero where refused. */
typedef struct onion_found {
    uint64_t number;
    uint64_t source; /* ONION_SOURCE_ORIGINAL or ONION_SOURCE_HISTORY */
    uint64_t offset; /* from the start of the original or of the history */
    uint64_t length; /* min(page size, logical size - address) */
} onion_found;

#define ONION_SOURCE_ORIGINAL 0
#define ONION_SOURCE_HISTORY 1

/* The whole check's first fault. A place that the fault does not name is 0. */
typedef struct onion_checked {
    uint64_t number;
    uint64_t revision; /* named for 7, 8 and 9 */
    uint64_t entry;    /* named for 9, counted from 0 */
} onion_checked;

/* Where a revision's record lies in the history: zeros for revision 0 and where refused. */
typedef struct onion_browsed {
    uint64_t number;
    uint64_t offset;
    uint64_t length;
} onion_browsed;

/* One step of browsing: all but the kind are zero unless it is an entry. */
typedef struct onion_step {
    uint64_t kind;      /* ONION_STEP_ENTRY, ONION_STEP_END or ONION_REFUSED_RECORD */
    uint64_t logical;   /* the page's address in the revision */
    uint64_t physical;  /* the page's address in the history */
    uint64_t page_sum;  /* the checksum of the page */
    uint64_t entry_sum; /* the checksum of the two addresses as they are stored */
} onion_step;

#define ONION_STEP_ENTRY 0
#define ONION_STEP_END 1

/* A part of the history: where it starts, and its length. */
typedef struct onion_part {
    uint64_t offset;
    uint64_t length;
} onion_part;

/* What a history says of itself: all but the number are zero where refused. */
typedef struct onion_setting {
    uint64_t number;
    uint64_t page_size;
    uint64_t original;  /* the original's length */
    uint64_t revisions; /* how many were committed; the newest has this number */
    uint64_t end;       /* the committed end: the bytes from here on mean nothing */
    bool lock;          /* a session is open, or a program left the lock behind */
    bool branching;     /* any revision may be opened for writing, not the newest alone */
} onion_setting;

/*
 * What a revision's record says: all but the number are zero where refused. Of revision 0, which has no record, the
 * logical size alone is told.
 */
typedef struct onion_record {
    uint64_t number;
    uint64_t revision;
    uint64_t parent;
    uint64_t logical;   /* the revision's length */
    uint64_t user;      /* the user ID */
    uint64_t entries;   /* how many index entries the record has */
    onion_part time;    /* sixteen bytes with no closing zero */
    onion_part name;    /* with its closing zero: a C string in the history */
    onion_part comment; /* with its closing zero: a C string in the history */
} onion_record;

/* ---- Writing ----------------------------------------------------------------------------------------------------- */

/*
 * Starts a history for an original of the given length: no revision, lock clear.
 * Changes: the first 60 bytes of the history.
 * Refuses: 1, 17.
 */
uint64_t onion_create(uint8_t *history, size_t history_length, uint64_t original, uint64_t page_size, bool branching);

/*
 * Opens a revision for writing, ONION_NEWEST for the newest. The session starts as the revision's view. Where refused,
 * the ended session is handed back.
 * Changes: sets the lock in the header (40 bytes).
 * Refuses: 1, 2, 3, 4, 5, 6, 11, 12, 18, 7, 8.
 */
onion_answer onion_open(const uint8_t *original, size_t original_length, uint8_t *history, size_t history_length,
                        uint64_t revision);

/*
 * Writes data at an offset up to the session's size, and extends the session where the data ends past it. Each page
 * that shares a byte with the data is copied on first touch to the next free bytes behind the committed end. No bytes
 * of data touch no page.
 * Changes: bytes behind the committed end.
 * Refuses: 1, 2, 3, 4, 5, 13, 7, 8, 13 (for the parent's size), 10, 19, 14, 15, 9.
 */
onion_answer onion_write(onion_session session, const uint8_t *original, size_t original_length, uint8_t *history,
                         size_t history_length, uint64_t at, const uint8_t *data, size_t data_length);

/*
 * Commits the session as the next revision: its record and the new whole history behind its pages, then the header
 * with the lock clear. Time is sixteen bytes, name and comment end in their only zero byte, which their length counts.
 * Accepted, it hands back the ended session.
 * Changes: bytes behind the committed end, and last the header (40 bytes).
 * Refuses: 1, 2, 3, 5, 13, 7, 8, 13 (for the parent's size), 14, 16, 15.
 */
onion_answer onion_commit(onion_session session, uint8_t *history, size_t history_length, const uint8_t *time,
                          size_t time_length, uint32_t user, const uint8_t *name, size_t name_length,
                          const uint8_t *comment, size_t comment_length);

/*
 * Clears the lock and ends the session without a revision. Any session will do, so the ended one, all zeros, clears a
 * lock that a program left behind. On an unlocked history it changes nothing and is accepted. Accepted, it hands back
 * the ended session.
 * Changes: clears the lock in the header (40 bytes).
 * Refuses: 1, 2, 3.
 */
onion_answer onion_release(onion_session session, uint8_t *history, size_t history_length);

/* ---- Reading ----------------------------------------------------------------------------------------------------- */

/*
 * Reads a revision from an offset on and fills all of the output. Length 0 is allowed up to the logical size. The
 * checksum of each stored page in the range is checked.
 * Changes: the output.
 * Refuses: 1, 2, 3, 4, 5, 6, 7, 8, 10, 9.
 */
uint64_t onion_read(const uint8_t *original, size_t original_length, const uint8_t *history, size_t history_length,
                    uint64_t revision, uint64_t at, uint8_t *output, size_t output_length);

/*
 * Reads through a session, its own pages first; neither they nor what they replace is checked. The session is handed
 * back as it was.
 * Changes: the output.
 * Refuses: 1, 2, 3, 4, 5, 13, 7, 8, 13 (for the parent's size), 10, 9.
 */
onion_answer onion_session_read(onion_session session, const uint8_t *original, size_t original_length,
                                const uint8_t *history, size_t history_length, uint64_t at, uint8_t *output,
                                size_t output_length);

/*
 * Says where the page at an address of a revision lies: in the original or in the history. The page is not copied.
 * Changes: nothing.
 * Refuses: 1, 2, 3, 4, 5, 6, 7, 8, 10, 20, 9.
 */
onion_found onion_look_up(const uint8_t *original, size_t original_length, const uint8_t *history,
                          size_t history_length, uint64_t revision, uint64_t address);

/*
 * Checks the whole history and answers its first fault: 1, 2, 3, 5, and then, revision after revision and entry after
 * entry, a record's 7, its 8 and its pages' 9.
 * Changes: nothing.
 */
onion_checked onion_check(const uint8_t *history, size_t history_length);

/*
 * Says what a history says of itself: page size, the original's length, revisions, committed end, lock and branching.
 * Changes: nothing.
 * Refuses: 1, 2, 3, 5.
 */
onion_setting onion_setting_of(const uint8_t *history, size_t history_length);

/*
 * Says what the record of a revision says, ONION_NEWEST for the newest, and where its texts stand in the history.
 * Changes: nothing.
 * Refuses: 1, 2, 3, 5, 6, 7, 8.
 */
onion_record onion_record_of(const uint8_t *history, size_t history_length, uint64_t revision);

/*
 * Lists the history as text: a line for the history and one for each revision, or a line that tells the refusal. The
 * answer is the text's length, at most ONION_LIST_MOST; where the output is too short for all of it nothing is written.
 * Changes: the first bytes of the output.
 * Refuses, in its text: 1, 2, 3, 5, and then, revision after revision, 7 and 8.
 */
uint64_t onion_list(const uint8_t *history, size_t history_length, uint8_t *output, size_t output_length);

/*
 * Says where the record of a revision lies, for onion_browse_step.
 * Changes: nothing.
 * Refuses: 1, 2, 3, 5, 6, 7, 8.
 */
onion_browsed onion_browse(const uint8_t *history, size_t history_length, uint64_t revision);

/*
 * Gives the index entry at a place of a record, counted from 0, or the end where the record has no more. Over no bytes
 * (revision 0) it gives the end.
 * Changes: nothing.
 * Refuses, by its kind: 7, for bytes that are neither none nor at least 76 + 24 x their own entry count long.
 */
onion_step onion_browse_step(const uint8_t *record, size_t record_length, uint64_t place);

/*
 * The checksum of any number of bytes: Fletcher-32 over big-endian 16-bit words, an odd last byte as a word's high half.
 * Changes: nothing. Refuses: never.
 */
uint32_t onion_checksum(const uint8_t *bytes, size_t length);

/* ---- Words ------------------------------------------------------------------------------------------------------- */

/* The sentence of a refusal number, "accepted" for 0 and "unknown number" for one that is not in the table. */
const char *onion_sentence(uint64_t number);

/* The version of the library, as ONION_VERSION is that of the header. */
uint32_t onion_version(void);

/* The structs have the sizes that the library has been built with. */
#if defined(__cplusplus)
#define ONION_SIZE_IS(type, size) static_assert(sizeof(type) == (size), #type)
#elif defined(__STDC_VERSION__) && __STDC_VERSION__ >= 201112L
#define ONION_SIZE_IS(type, size) _Static_assert(sizeof(type) == (size), #type)
#else
#define ONION_SIZE_IS(type, size) typedef char type##_size[sizeof(type) == (size) ? 1 : -1]
#endif
ONION_SIZE_IS(onion_session, 1064);
ONION_SIZE_IS(onion_answer, 1072);
ONION_SIZE_IS(onion_found, 32);
ONION_SIZE_IS(onion_checked, 24);
ONION_SIZE_IS(onion_browsed, 24);
ONION_SIZE_IS(onion_step, 40);
ONION_SIZE_IS(onion_part, 16);
ONION_SIZE_IS(onion_setting, 48);
ONION_SIZE_IS(onion_record, 96);
#undef ONION_SIZE_IS

#ifdef __cplusplus
}
#endif

#endif
