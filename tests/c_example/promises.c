/*
 * What the header says beside its calls: every pointer of length 0 may be NULL, and the versions agree. Then the
 * sentences of all numbers are printed, and of two that are none. Ends with status 1 where an answer is another.
 */
#include <inttypes.h>
#include <onion.h>
#include <stdio.h>

static int wrong;

#define EXPECT(call, want) expect(#call, (uint64_t)(call), want)

static void expect(const char *call, uint64_t answer, uint64_t want)
{
    if (answer != want) {
        wrong = 1;
        fprintf(stderr, "%s\n    answers %" PRIu64 " and not %" PRIu64 "\n", call, answer, want);
    }
}

static onion_session ended; /* all zeros, and never stored to */
static uint8_t history[700];
static const size_t length = sizeof history;
static const uint8_t text[] = "a";
static const uint8_t when[] = "20240305T070000Z";

/* No history at all. */
static void no_history(void)
{
    EXPECT(onion_create(NULL, 0, 0, 16, true), ONION_REFUSED_HISTORY_LENGTH);
    EXPECT(onion_open(NULL, 0, NULL, 0, 0).number, ONION_REFUSED_HISTORY_LENGTH);
    EXPECT(onion_write(ended, NULL, 0, NULL, 0, 0, NULL, 0).number, ONION_REFUSED_HISTORY_LENGTH);
    EXPECT(onion_commit(ended, NULL, 0, NULL, 0, 0, NULL, 0, NULL, 0).number, ONION_REFUSED_HISTORY_LENGTH);
    EXPECT(onion_release(ended, NULL, 0).number, ONION_REFUSED_HISTORY_LENGTH);
    EXPECT(onion_read(NULL, 0, NULL, 0, 0, 0, NULL, 0), ONION_REFUSED_HISTORY_LENGTH);
    EXPECT(onion_session_read(ended, NULL, 0, NULL, 0, 0, NULL, 0).number, ONION_REFUSED_HISTORY_LENGTH);
    EXPECT(onion_look_up(NULL, 0, NULL, 0, 0, 0).number, ONION_REFUSED_HISTORY_LENGTH);
    EXPECT(onion_check(NULL, 0).number, ONION_REFUSED_HISTORY_LENGTH);
    EXPECT(onion_setting_of(NULL, 0).number, ONION_REFUSED_HISTORY_LENGTH);
    EXPECT(onion_record_of(NULL, 0, 0).number, ONION_REFUSED_HISTORY_LENGTH);
    EXPECT(onion_list(NULL, 0, NULL, 0), sizeof "refused 1\n" - 1);
    EXPECT(onion_browse(NULL, 0, 0).number, ONION_REFUSED_HISTORY_LENGTH);
    EXPECT(onion_browse_step(NULL, 0, 0).kind, ONION_STEP_END);
    EXPECT(onion_checksum(NULL, 0), 0);
}

/* A history of an original without bytes, and none in any other place. */
static void no_bytes(void)
{
    onion_answer answer;

    EXPECT(onion_create(history, length, 0, 16, true), ONION_ACCEPTED);
    EXPECT(onion_list(history, length, NULL, 0), sizeof "pages 16 original 0 revisions 0 lock no branch yes\n" - 1);
    EXPECT(onion_read(NULL, 0, history, length, 0, 0, NULL, 0), ONION_ACCEPTED);
    EXPECT(onion_look_up(NULL, 0, history, length, 0, 0).number, ONION_REFUSED_OUTSIDE);
    answer = onion_open(NULL, 0, history, length, ONION_NEWEST);
    EXPECT(answer.number, ONION_ACCEPTED);
    answer = onion_write(answer.session, NULL, 0, history, length, 0, NULL, 0);
    EXPECT(answer.number, ONION_ACCEPTED);
    EXPECT(answer.session.n, 0);
    answer = onion_write(answer.session, NULL, 0, history, length, 0, text, sizeof text);
    EXPECT(answer.number, ONION_ACCEPTED);
    EXPECT(answer.session.size, sizeof text);
    EXPECT(onion_session_read(answer.session, NULL, 0, history, length, sizeof text, NULL, 0).number, ONION_ACCEPTED);
    EXPECT(onion_commit(answer.session, history, length, NULL, 0, 0, text, sizeof text, text, sizeof text).number,
           ONION_REFUSED_TEXT);
    EXPECT(onion_commit(answer.session, history, length, when, ONION_TIME_LENGTH, 0, NULL, 0, text, sizeof text).number,
           ONION_REFUSED_TEXT);
    EXPECT(onion_commit(answer.session, history, length, when, ONION_TIME_LENGTH, 0, text, sizeof text, NULL, 0).number,
           ONION_REFUSED_TEXT);
    EXPECT(onion_commit(answer.session, history, length, when, ONION_TIME_LENGTH, 0, text, sizeof text, text,
                        sizeof text).number, ONION_ACCEPTED);
    EXPECT(onion_record_of(history, length, ONION_NEWEST).logical, sizeof text);
}

int main(void)
{
    uint64_t number;

    no_history();
    no_bytes();
    EXPECT(onion_version(), ONION_VERSION);
    for (number = ONION_ACCEPTED; number <= ONION_REFUSED_NOT_STORED + 1; number++)
        printf("%" PRIu64 " %s\n", number, onion_sentence(number));
    printf("%" PRIu64 " %s\n", UINT64_MAX, onion_sentence(UINT64_MAX));
    return wrong;
}
