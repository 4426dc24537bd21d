/* stack FILE: the bytes of stack that each call of the library takes, a line each. */
#define _GNU_SOURCE
#include <mcsim.h>
#include <pthread.h>
#include <stdio.h>
#include <stdlib.h>
#include <string.h>

#define HORIZON 2000
#define STACK (1 << 18)
#define ROOM (1 << 20)
#define CALLS 9
#define OLD 0xa5

static const char *const NAMES[CALLS] = {"nothing", "mcs_run", "mcs_check findings", "mcs_check all", "mcs_rows", "mcs_findings", "mcs_name", "mcs_why",
                                    "mcs_forever"};
static uint8_t text[1 << 16];
static _Alignas(4096) uint8_t stack[STACK];
static _Alignas(uint64_t) uint8_t room[ROOM];
static size_t text_bytes, name_bytes;
/* the name of the first thread */
static uint8_t name[32];

static void *call(void *number)
{
    size_t length = 0;
    uint64_t before = 0;

    switch ((intptr_t)number) {
    case 1:
        mcs_run(text, text_bytes, HORIZON, MCS_BOTH, room, ROOM, &length);
        break;
    case 2:
        mcs_check(text, text_bytes, HORIZON, MCS_FINDINGS, MCS_TEXT, text, 0, room, ROOM, &length);
        break;
    case 3:
        mcs_check(text, text_bytes, HORIZON, MCS_ALL, MCS_JSON, text, 0, room, ROOM, &length);
        break;
    case 4:
        mcs_rows(text, text_bytes, HORIZON, (mcs_row *)room, ROOM / sizeof(mcs_row), &length, &before);
        break;
    case 5:
        mcs_findings(text, text_bytes, HORIZON, (mcs_finding *)room, ROOM / sizeof(mcs_finding), &length);
        break;
    case 6:
        mcs_name(text, text_bytes, MCS_THREAD, 0, room, ROOM, &length);
        break;
    case 7:
        mcs_why(text, text_bytes, HORIZON, name, name_bytes, (const uint8_t *)"2", 1, MCS_JSON, room, ROOM, &length);
        break;
    case 8:
        mcs_forever(text, text_bytes, HORIZON, MCS_JSON, text, 0, room, ROOM, &length);
        break;
    }
    return NULL;
}

int main(int count, char **words)
{
    FILE *file = count == 2 ? fopen(words[1], "rb") : NULL;
    size_t nothing = 0;

    if (file == NULL)
        return 2;
    text_bytes = fread(text, 1, sizeof text, file);
    fclose(file);
    if (mcs_name(text, text_bytes, MCS_THREAD, 0, name, sizeof name, &name_bytes) != MCS_LINES)
        return 2;
    for (intptr_t number = 0; number < CALLS; number++) {
        pthread_t thread;
        pthread_attr_t own;
        size_t free_bytes = 0;

        memset(stack, OLD, STACK);
        pthread_attr_init(&own);
        pthread_attr_setstack(&own, stack, STACK);
        if (pthread_create(&thread, &own, call, (void *)number) != 0)
            return 2;
        pthread_join(thread, NULL);
        while (free_bytes < STACK && stack[free_bytes] == OLD)
            free_bytes++;
        if (number == 0)
            nothing = STACK - free_bytes;
        else
            printf("%s %zu\n", NAMES[number], STACK - free_bytes - nothing);
    }
    return 0;
}
