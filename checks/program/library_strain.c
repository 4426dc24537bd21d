/* strain FILE: calls the library with allocations that fail, from 8 threads, and with damaged texts:
 * the simulation, each part of a check, the rows, the findings, a round and all time.
 * A line tells what was tried, and one what is wrong.
 * malloc, realloc and free of the library are those below (-Wl,--wrap). */
#include <mcsim.h>
#include <pthread.h>
#include <stdatomic.h>
#include <stdio.h>
#include <stdlib.h>
#include <string.h>

#define HORIZON 200
#define ROOM (1 << 16)
#define THREADS 8
/* damaged texts: for mcs_run, and for each other call */
#define TEXTS 5000
#define FEWER 1000

void *__real_malloc(size_t bytes);
void *__real_realloc(void *at, size_t bytes);
void __real_free(void *at);

/* allocations until one is refused, all after it if refuses_all; below 0 none is */
static _Thread_local long left = -1;
static _Thread_local int refuses_all;
static atomic_long kept;

static int is_refused(void)
{
    return left >= 0 && (left == 0 ? !refuses_all ? (left = -1, 1) : 1 : (left--, 0));
}

void *__wrap_malloc(size_t bytes)
{
    void *at = is_refused() ? NULL : __real_malloc(bytes);
    kept += at != NULL;
    return at;
}

void *__wrap_realloc(void *at, size_t bytes)
{
    void *now = is_refused() ? NULL : __real_realloc(at, bytes);
    kept += at == NULL && now != NULL;
    return now;
}

void __wrap_free(void *at)
{
    kept -= at != NULL;
    __real_free(at);
}

static uint8_t text[1 << 16];
static _Alignas(uint64_t) uint8_t wanted[ROOM];
static size_t text_bytes, wanted_bytes, name_bytes;
/* the name of the first thread */
static uint8_t name[32];
static uint32_t wanted_result;
static atomic_int wrong;

/* the call that is tried: 0 mcs_run, 1 to 4 mcs_check in each part, 5 mcs_rows, 6 mcs_findings,
 * 7 mcs_rows with a short array, 8 mcs_why, 9 mcs_forever */
static int tried;
#define TRIED 10
#define FEW 7

static uint32_t call(const uint8_t *from, size_t bytes, uint8_t *room, size_t *length)
{
    uint64_t before = 0;
    uint32_t result;

    switch (tried) {
    case 0:
        return mcs_run(from, bytes, HORIZON, MCS_BOTH, room, ROOM, length);
    case 5:
    case 7:
        result = mcs_rows(from, bytes, HORIZON, (mcs_row *)room, tried == 7 ? FEW : ROOM / sizeof(mcs_row), length, &before);
        *length *= sizeof(mcs_row);
        return result;
    case 6:
        result = mcs_findings(from, bytes, HORIZON, (mcs_finding *)room, ROOM / sizeof(mcs_finding), length);
        *length *= sizeof(mcs_finding);
        return result;
    case 8:
        return mcs_why(from, bytes, HORIZON, name, name_bytes, (const uint8_t *)"1", 1, MCS_TEXT, room, ROOM, length);
    case 9:
        return mcs_forever(from, bytes, HORIZON, MCS_JSON, from, 0, room, ROOM, length);
    default:
        return mcs_check(from, bytes, HORIZON, (uint32_t)tried - 1, MCS_JSON, from, 0, room, ROOM, length);
    }
}

static int has_output(uint32_t result)
{
    return result == MCS_LINES || result == MCS_FOUND || result == MCS_UNJUDGED || result == MCS_PART;
}

static void expect(const char *what, long number, int is_good)
{
    if (!is_good) {
        printf("wrong: %s %ld\n", what, number);
        wrong++;
    }
}

/* whether a room has the lines, or is as it was */
static int is_whole(const uint8_t *room, size_t length)
{
    return length == wanted_bytes && memcmp(room, wanted, length) == 0;
}

static int is_clear(const uint8_t *room, size_t from)
{
    for (size_t at = from; at < ROOM; at++)
        if (room[at] != 0)
            return 0;
    return 1;
}

static long refuse_each(int all)
{
    static _Alignas(uint64_t) uint8_t room[ROOM];
    long first = 0;

    for (;; first++) {
        size_t length = 7;
        memset(room, 0, ROOM);
        left = first, refuses_all = all;
        uint32_t result = call(text, text_bytes, room, &length);
        int was_refused = left <= 0 && (all ? left == 0 : left == -1);
        left = -1;
        expect("memory is kept after a refusal at", first, kept == 0);
        if (has_output(result)) {
            expect("lines after a refusal at", first, result == wanted_result && is_whole(room, length) && is_clear(room, length));
            if (!was_refused)
                return first;
        } else {
            expect("the result of a refusal at", first, result == MCS_NO_MEMORY && length == 0 && is_clear(room, 0));
        }
    }
}

static void *call_often(void *number)
{
    uint8_t *room = malloc(ROOM);
    memset(room, 0, ROOM);
    for (int time = 0; time < 50; time++) {
        size_t length = 0;
        uint32_t result = call(text, text_bytes, room, &length);
        expect("a call of thread", (long)(intptr_t)number, result == wanted_result && is_whole(room, length));
    }
    free(room);
    return NULL;
}

/* texts with bytes that were changed, taken away or doubled */
static long damage(void)
{
    static uint8_t own[1 << 17];
    static _Alignas(uint64_t) uint8_t room[ROOM];
    long systems = 0, faults = 0, texts = tried == 0 ? TEXTS : FEWER;

    srand(1);
    for (int number = 0; number < texts; number++) {
        size_t bytes = text_bytes, length = 0;
        memcpy(own, text, bytes);
        for (int change = rand() % 4; change >= 0 && bytes > 0; change--) {
            size_t at = (size_t)rand() % bytes, some = 1 + (size_t)rand() % 9;
            if (at + some > bytes)
                some = bytes - at;
            switch (rand() % 3) {
            case 0:
                own[at] = (uint8_t)(rand() % 2 ? rand() : "09\"[]{}=,\n #-"[rand() % 13]);
                break;
            case 1:
                memmove(own + at, own + at + some, bytes - at - some);
                bytes -= some;
                break;
            default:
                memmove(own + at + some, own + at, bytes - at);
                bytes += some;
            }
        }
        /* memory of just the text, so that a read behind it is found */
        uint8_t *just = malloc(bytes + (bytes == 0));
        memcpy(just, own, bytes);
        uint32_t result = call(just, bytes, room, &length);
        free(just);
        expect("the result of text", number, (has_output(result) || result == MCS_FAULT || result == MCS_ROOM) && length <= 2 * ROOM);
        systems += has_output(result);
        faults += result == MCS_FAULT;
    }
    expect("texts that are systems", systems, systems > texts / 250);
    return faults;
}

int main(int count, char **words)
{
    pthread_t threads[THREADS];
    long once = 0, all = 0, faults = 0;
    FILE *file = count == 2 ? fopen(words[1], "rb") : NULL;

    if (file == NULL)
        return 2;
    text_bytes = fread(text, 1, sizeof text, file);
    fclose(file);
    if (mcs_name(text, text_bytes, MCS_THREAD, 0, name, sizeof name, &name_bytes) != MCS_LINES)
        return 2;
    kept = 0;
    for (tried = 0; tried < TRIED; tried++) {
        wanted_result = call(text, text_bytes, wanted, &wanted_bytes);
        expect("the first call", tried, has_output(wanted_result));
        expect("memory is kept after the first call", tried, kept == 0);
        once += refuse_each(0), all += refuse_each(1), faults += damage();
        for (intptr_t number = 0; number < THREADS; number++)
            pthread_create(&threads[number], NULL, call_often, (void *)number);
        for (int number = 0; number < THREADS; number++)
            pthread_join(threads[number], NULL);
    }
    printf("refused %ld and %ld, faults %ld of %d texts, wrong %d\n", once, all, faults, TEXTS + (TRIED - 1) * FEWER, wrong);
    return wrong != 0;
}
