/*
 * The store from C: a history in a buffer, one session, one revision, and the revision read back.
 *
 *     cc -I include host/c_example/main.c target/lib/libonion.a -o c_example && ./c_example
 *
 * It prints what it did and ends with status 0, or says which call was refused and ends with status 1.
 */
#include <onion.h>
#include <stdio.h>
#include <stdlib.h>
#include <string.h>

static const uint8_t original[20] = "a net of 20 meshes..";
static uint8_t history[512];

/* Ends the program where a call was refused. */
static void need(const char *call, uint64_t number)
{
    if (number != ONION_ACCEPTED) {
        fprintf(stderr, "%s: refused %llu\n", call, (unsigned long long)number);
        exit(1);
    }
}

int main(void)
{
    static const uint8_t time[] = "20240305T070000Z"; /* its closing zero is not handed on */
    static const uint8_t name[] = "ana";
    static const uint8_t comment[] = "a knot";
    uint8_t bytes[sizeof original];

    need("create", onion_create(history, sizeof history, sizeof original, 16, false));

    /* Each call takes the session by value and gives the one to go on with. */
    onion_answer answer = onion_open(original, sizeof original, history, sizeof history, ONION_NEWEST);
    need("open", answer.number);
    answer = onion_write(answer.session, original, sizeof original, history, sizeof history, 14,
                         (const uint8_t *)"KNOT", 4);
    need("write", answer.number);
    answer = onion_commit(answer.session, history, sizeof history, time, ONION_TIME_LENGTH, 7, name, sizeof name,
                          comment, sizeof comment);
    need("commit", answer.number);

    /* The revision holds the edit, and the original is still there. */
    need("read", onion_read(original, sizeof original, history, sizeof history, 1, 0, bytes, sizeof bytes));
    printf("revision 1: %.20s\n", (const char *)bytes);
    if (memcmp(bytes, "a net of 20 meKNOT..", sizeof bytes) != 0)
        return 1;
    need("read", onion_read(original, sizeof original, history, sizeof history, 0, 0, bytes, sizeof bytes));
    printf("revision 0: %.20s\n", (const char *)bytes);
    if (memcmp(bytes, original, sizeof bytes) != 0)
        return 1;

    /* The pages that the revision stores. */
    onion_browsed record = onion_browse(history, sizeof history, 1);
    need("browse", record.number);
    for (uint64_t place = 0;; place++) {
        onion_step step = onion_browse_step(history + record.offset, record.length, place);
        if (step.kind != ONION_STEP_ENTRY)
            break;
        printf("page %llu lies at %llu\n", (unsigned long long)step.logical, (unsigned long long)step.physical);
    }

    need("check", onion_check(history, sizeof history).number);

    /* An ended session is refused by number, and nothing changes. */
    answer = onion_write(answer.session, original, sizeof original, history, sizeof history, 0, original, 1);
    printf("write with an ended session: refused %llu\n", (unsigned long long)answer.number);
    return answer.number == ONION_REFUSED_SESSION ? 0 : 1;
}
