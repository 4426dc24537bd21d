/* A unit test of a design: test_design FILE THREAD fails if the budget of a thread is ever exhausted. */
#include <inttypes.h>
#include <mcsim.h>
#include <stdio.h>
#include <stdlib.h>
#include <string.h>

#define HORIZON 10000
#define MOST 100000

static mcs_row rows[MOST];

/* the number of the thread with a name */
static uint64_t thread_named(const uint8_t *text, size_t bytes, const char *wanted)
{
    uint8_t name[32];
    size_t length = 0;

    for (uint64_t number = 0; mcs_name(text, bytes, MCS_THREAD, number, name, sizeof name, &length) == MCS_LINES; number++)
        if (length == strlen(wanted) && memcmp(name, wanted, length) == 0)
            return number;
    fprintf(stderr, "test_design: no thread is called %s\n", wanted);
    exit(2);
}

int main(int count, char **words)
{
    static uint8_t text[1 << 16];
    size_t many = 0;
    uint64_t before = 0;
    int failed = 0;
    FILE *file = count == 3 ? fopen(words[1], "rb") : NULL;

    if (file == NULL) {
        fprintf(stderr, "usage: test_design FILE THREAD\n");
        return 2;
    }
    size_t bytes = fread(text, 1, sizeof text, file);
    fclose(file);
    uint32_t result = mcs_rows(text, bytes, HORIZON, rows, MOST, &many, &before);
    if (result != MCS_LINES) {
        fprintf(stderr, "test_design: %s\n", result == MCS_FAULT ? "the file is not a system" : result == MCS_PART ? "too many rows" : "no memory");
        return 1;
    }
    uint64_t thread = thread_named(text, bytes, words[2]);
    for (size_t at = 0; at < many; at++)
        if (rows[at].kind == MCS_STOP && rows[at].why == MCS_SPENT && rows[at].part == thread && failed++ == 0)
            printf("FAIL: at %" PRIu64 "\n", rows[at].moment);
    printf("%s: the budget of %s is exhausted %d times\n", words[1], words[2], failed);
    return failed != 0;
}
