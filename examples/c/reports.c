/* Prints the reports of a system: reports FILE [HORIZON]. The statuses are those of mcsim. */
#include <mcsim.h>
#include <stdio.h>
#include <stdlib.h>

/* bytes in memory of malloc */
struct bytes {
    uint8_t *at;
    size_t length;
};

/* the whole of a file; at is NULL where it cannot be read */
static struct bytes read_file(const char *name)
{
    struct bytes text = {NULL, 0};
    size_t room = 4096, got = 0;
    FILE *file = fopen(name, "rb");

    if (file == NULL)
        return text;
    uint8_t *at = malloc(room);
    while (at != NULL && (got = fread(at + text.length, 1, room - text.length, file)) > 0) {
        text.length += got;
        if (text.length == room) {
            uint8_t *more = realloc(at, room *= 2);
            if (more == NULL)
                free(at);
            at = more;
        }
    }
    if (ferror(file)) {
        free(at);
        at = NULL;
    }
    fclose(file);
    text.at = at;
    return text;
}

/* what the library answers, in a room that is large enough */
static uint32_t run(struct bytes text, uint64_t horizon, uint32_t show, struct bytes *answer)
{
    size_t room = 4096;

    for (;;) {
        answer->at = calloc(room, 1);
        if (answer->at == NULL)
            return MCS_NO_MEMORY;
        uint32_t result = mcs_run(text.at, text.length, horizon, show, answer->at, room, &answer->length);
        if (result != MCS_ROOM)
            return result;
        free(answer->at);
        room = answer->length;
    }
}

int main(int count, char **words)
{
    char *end = "";
    uint64_t horizon = count == 3 ? strtoull(words[2], &end, 10) : 1000;

    if (count < 2 || count > 3 || *end != '\0') {
        fprintf(stderr, "usage: reports FILE [HORIZON]\n");
        return 2;
    }
    struct bytes text = read_file(words[1]), answer;
    if (text.at == NULL) {
        fprintf(stderr, "reports: read failed\n");
        return 3;
    }
    uint32_t result = run(text, horizon, MCS_REPORTS, &answer);
    int status = 0;
    switch (result) {
    case MCS_LINES:
        if (fwrite(answer.at, 1, answer.length, stdout) != answer.length || fflush(stdout) != 0) {
            fprintf(stderr, "reports: write failed\n");
            status = 3;
        }
        break;
    case MCS_FAULT:
        fprintf(stderr, "%.*s\n", (int)answer.length, (const char *)answer.at);
        status = 1;
        break;
    case MCS_REFUSED:
        fprintf(stderr, "reports: the horizon is 0 to 2^40\n");
        status = 2;
        break;
    default:
        fprintf(stderr, "reports: no memory\n");
        status = 4;
    }
    free(answer.at);
    free(text.at);
    return status;
}
