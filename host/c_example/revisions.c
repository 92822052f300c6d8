/* revisions HISTORY COPY: prints every revision of a history file, and saves the file up to its committed end. */
#include <onion.h>
#include <stdio.h>

static uint8_t history[ONION_SIZE_MOST + 1];

/* Says why a call was refused. */
static int refused(uint64_t number)
{
    fprintf(stderr, "refused %lu: %s\n", (unsigned long)number, onion_sentence(number));
    return 1;
}

int main(int count, char **names)
{
    FILE *file = count == 3 ? fopen(names[1], "rb") : NULL;
    if (file == NULL)
        return fprintf(stderr, "usage: revisions HISTORY COPY\n"), 2;
    size_t length = fread(history, 1, sizeof history, file);
    fclose(file);
    onion_setting s = onion_setting_of(history, length);
    if (s.number != ONION_ACCEPTED)
        return refused(s.number);
    for (uint64_t k = 1; k <= s.revisions; k++) {
        onion_record r = onion_record_of(history, length, k);
        if (r.number != ONION_ACCEPTED)
            return refused(r.number);
        printf("%lu %lu %.16s %s %s %lu\n", (unsigned long)k, (unsigned long)r.parent, (const char *)history + r.time.offset,
               (const char *)history + r.name.offset, (const char *)history + r.comment.offset, (unsigned long)r.logical);
    }
    file = fopen(names[2], "wb");
    return file == NULL || fwrite(history, 1, (size_t)s.end, file) != (size_t)s.end || fclose(file) != 0;
}
