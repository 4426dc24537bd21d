/* mcsim.h: the mcsim simulator and its checker as a library. Link libmcs.so (-lmcs), or libmcs_c.a.
 *
 * A call takes the text of a system. It writes the lines that the program mcsim or mcscheck prints,
 * or rows and findings in numbers, to memory of the caller. Its results are proved: see
 * crates/mcs_c/README.md in the repository. */
#ifndef MCSIM_H
#define MCSIM_H

#include <stddef.h>
#include <stdint.h>

#ifdef __cplusplus
extern "C" {
#endif

/* The version of this interface. A new minor number adds calls or values, and a program that was
 * built with an earlier one still runs. The major number is that of libmcs.so.1. */
#define MCS_VERSION_MAJOR 1
#define MCS_VERSION_MINOR 3
#define MCS_VERSION (MCS_VERSION_MAJOR * 65536 + MCS_VERSION_MINOR)

/* The maximum horizon, in ticks: 2^40. */
#define MCS_HORIZON_MAX (UINT64_C(1) << 40)

/* What is written: values of `show`. */
enum {
    MCS_SCHEDULE = 0, /* a line for each row of the schedule */
    MCS_REPORTS = 1,  /* a line for each thread, then one for each core */
    MCS_BOTH = 2      /* the schedule, then the reports */
};

/* What a check writes: values of `part`. */
enum {
    MCS_FINDINGS = 0, /* a line for each finding and each hint */
    MCS_JOBS = 1,     /* a line for each job that ended */
    MCS_TABLE = 2,    /* the figures of each thread, context and chain */
    MCS_ALL = 3       /* the findings, then the figures */
};

/* The format of what a check writes: values of `format`. The objects of JSON stand one a line. */
enum {
    MCS_TEXT = 0,
    MCS_CSV = 1,
    MCS_JSON = 2
};

/* Results of a call. */
enum {
    MCS_LINES = 0,     /* the room begins with the lines, each with its line feed; or all rows, all
                          findings or the name are there. Of a check: nothing was found */
    MCS_FAULT = 1,     /* the text is not a system, or a name is unknown: the room begins with the
                          line of the first fault, without a line feed. Of mcs_why also: there is
                          no such thread, chain, round or answer */
    MCS_ROOM = 2,      /* the room is too small: *length bytes, or *many findings, are needed */
    MCS_REFUSED = 3,   /* an argument is out of range */
    MCS_NO_MEMORY = 4, /* out of memory */
    MCS_FOUND = 5,     /* of a check: the room begins with the lines, and something was found */
    MCS_UNJUDGED = 6,  /* of a check: the room begins with the lines; nothing was found, and nothing
                          was judged. Of mcs_forever: nothing was found so far */
    MCS_PART = 7       /* the array is full of the first rows */
};

/* Stands where a row or a finding has no such number. */
#define MCS_NONE UINT64_MAX

/* Simulates the system that a text describes, up to a horizon.
 *
 *   text, text_bytes    The text, as in a file for mcsim: TOML in UTF-8. Other bytes are a fault of
 *                       the text. It needs no 0 byte at its end.
 *   horizon             The last time of the run, in ticks: 0 to MCS_HORIZON_MAX. If it is larger,
 *                       the result is MCS_REFUSED.
 *   show                MCS_SCHEDULE, MCS_REPORTS or MCS_BOTH. Other values give MCS_REFUSED.
 *   room, room_bytes    Memory for the output.
 *   length              Receives the number of bytes of the output.
 *
 *   Result              *length                      Room
 *   MCS_LINES           bytes of the lines           the lines; later bytes are unchanged
 *   MCS_FAULT           bytes of the fault's line    the line; later bytes are unchanged
 *   MCS_ROOM            bytes needed                 unchanged
 *   MCS_REFUSED         0                            unchanged
 *   MCS_NO_MEMORY       0                            unchanged
 *
 * Ownership: text, room and *length belong to the caller before, during and after the call. The
 * library keeps no pointer to them, only reads text, and writes nothing but room and *length. It
 * frees all memory that it allocates before it returns.
 *
 * The caller must ensure the following. No result reports a breach: the behaviour is undefined.
 *   - No pointer is null. If text_bytes or room_bytes is 0, the pointer may point to any object.
 *   - text points to text_bytes initialised bytes, and room to room_bytes initialised, writable
 *     bytes; calloc is enough. Each is at most PTRDIFF_MAX bytes. length points to a size_t.
 *   - room, *length and text do not overlap.
 *   - While the call runs, no other thread reads or writes room or *length, or writes text.
 *
 * The call runs on the calling thread, and starts no other. It keeps no state between calls, so
 * several threads may call it at once, each with its own room and length; they may share the text.
 * It keeps all rows of a run until the last is made, whatever show is. To read a long run while it
 * proceeds, start the program. The call has no time limit, and cannot be stopped. */
uint32_t mcs_run(const uint8_t *text, size_t text_bytes, uint64_t horizon, uint32_t show, uint8_t *room, size_t room_bytes, size_t *length);

/* The version of the library, as MCS_VERSION has that of this header. It has the calls of this
 * header if it is at least MCS_VERSION and its major number, mcs_version() / 65536, is the same. */
uint32_t mcs_version(void);

/* Checks the system that a text describes, up to a horizon: what mcscheck prints.
 *
 *   text, text_bytes    The text, as above.
 *   horizon             The last time of the run, in ticks: 0 to MCS_HORIZON_MAX.
 *   part, format        What is written, and how. MCS_CSV does not go with MCS_ALL.
 *   allowed,            The names of the notifications at which a lost signal is no finding, one a
 *   allowed_bytes       line, without a line feed behind the last; of 0 bytes if there is none.
 *   room, room_bytes    Memory for the output.
 *   length              Receives the number of bytes of the output.
 *
 *   Result              *length                      Room
 *   MCS_LINES           bytes of the lines           the lines; nothing was found
 *   MCS_FOUND           bytes of the lines           the lines; something was found
 *   MCS_UNJUDGED        bytes of the lines           the lines; nothing was found or judged
 *   MCS_FAULT           bytes of the fault's line    the line, as mcscheck writes it: of the text,
 *                                                    or of a name that no notification has
 *   MCS_ROOM            bytes needed                 unchanged
 *   MCS_REFUSED         0                            unchanged: horizon, part or format is out of
 *                                                    range, they do not go together, or allowed is
 *                                                    not UTF-8
 *   MCS_NO_MEMORY       0                            unchanged
 *
 * Bytes behind the output are unchanged. The duties are those of mcs_run, for allowed as for text.
 * The call keeps no rows. */
uint32_t mcs_check(const uint8_t *text, size_t text_bytes, uint64_t horizon, uint32_t part, uint32_t format, const uint8_t *allowed, size_t allowed_bytes, uint8_t *room, size_t room_bytes, size_t *length);

/* Explains why a round of a thread or an answer of a chain took so long: what mcscheck --why
 * prints.
 *
 *   text, text_bytes    The text, as above.
 *   horizon             The last time of the run, in ticks: 0 to MCS_HORIZON_MAX.
 *   thread,             The name of the thread, in UTF-8. If no thread has the name, it is that of
 *   thread_bytes        a chain.
 *   round, round_bytes  The number of the round or the answer in digits, from 1: "3" is the third.
 *   format              MCS_TEXT or MCS_JSON.
 *   room, room_bytes    Memory for the output.
 *   length              Receives the number of bytes of the output.
 *
 *   Result              *length                      Room
 *   MCS_LINES           bytes of the lines           the lines: the rows of the round's core, its
 *                                                    times, and who ran meanwhile; or the answer
 *                                                    and the legs of its way
 *   MCS_FAULT           bytes of the fault's line    the line, as mcscheck writes it: of the text,
 *                                                    or of a name or number that is not there
 *   MCS_ROOM            bytes needed                 unchanged
 *   MCS_REFUSED         0                            unchanged: horizon or format is out of range,
 *                                                    format is MCS_CSV, or thread or round is not
 *                                                    UTF-8
 *   MCS_NO_MEMORY       0                            unchanged
 *
 * Bytes behind the output are unchanged. The duties are those of mcs_run, for thread and round as
 * for text. The call makes the run twice and keeps no rows. */
uint32_t mcs_why(const uint8_t *text, size_t text_bytes, uint64_t horizon, const uint8_t *thread, size_t thread_bytes, const uint8_t *round, size_t round_bytes, uint32_t format, uint8_t *room, size_t room_bytes, size_t *length);

/* Checks the system that a text describes for all time: what mcscheck --forever prints. It searches
 * for a repetition of each set of cores and of each chain up to a horizon.
 *
 *   text, text_bytes    The text, as above.
 *   horizon             The last time of the search, in ticks: 0 to MCS_HORIZON_MAX.
 *   format              MCS_TEXT or MCS_JSON.
 *   allowed,            The names of the notifications at which a lost signal is no finding, as for
 *   allowed_bytes       mcs_check.
 *   room, room_bytes    Memory for the output.
 *   length              Receives the number of bytes of the output.
 *
 *   Result              *length                      Room
 *   MCS_LINES           bytes of the lines           the lines; each set and each chain with a
 *                                                    deadline repeats, and nothing is ever found
 *   MCS_FOUND           bytes of the lines           the lines; something was found
 *   MCS_UNJUDGED        bytes of the lines           the lines; nothing was found, but a set or a
 *                                                    chain with a deadline was not found to
 *                                                    repeat, or there is no deadline
 *   MCS_FAULT           bytes of the fault's line    the line, as after mcs_check
 *   MCS_ROOM            bytes needed                 unchanged
 *   MCS_REFUSED         0                            unchanged: horizon or format is out of range,
 *                                                    format is MCS_CSV, or allowed is not UTF-8
 *   MCS_NO_MEMORY       0                            unchanged
 *
 * Bytes behind the output are unchanged. The duties are those of mcs_check. The call keeps no
 * rows. */
uint32_t mcs_forever(const uint8_t *text, size_t text_bytes, uint64_t horizon, uint32_t format, const uint8_t *allowed, size_t allowed_bytes, uint8_t *room, size_t room_bytes, size_t *length);

/* The kinds of rows. */
enum {
    MCS_RELEASE = 0,   /* the thread `part` leaves the release queue */
    MCS_RUN = 1,       /* the thread is chosen to run */
    MCS_STOP = 2,      /* the thread stops: `why`, charged `value` ticks; `more` is the date of the
                          replenishment for which it waits, or MCS_NONE */
    MCS_SIGNAL = 3,    /* the thread's signal at `note` takes effect, with the badge `value` */
    MCS_ARRIVE = 4,    /* the badge `value` of the core `part` arrives at `note` */
    MCS_WAKE = 5,      /* the thread is woken at `note` with the word `value`; `more` is the date of
                          the replenishment for which it waits, or MCS_NONE */
    MCS_HOLD = 6,      /* no thread waits at `note`, whose word is now `value` */
    MCS_GOT = 7,       /* the thread took the word `value` of `note` without blocking */
    MCS_ROUND = 8,     /* the round `value` of the thread ended, with the response `more` */
    MCS_ORDER = 9,     /* the context `part` is reconfigured */
    MCS_INTERRUPT = 10 /* the source `part` posts the badge `value` at `note` */
};

/* Why a thread stops, in the order of docs/FORMAT.md. */
enum {
    MCS_SPENT = 0,
    MCS_YIELD = 1,
    MCS_WAIT = 2,
    MCS_CALL = 3,
    MCS_DONE = 4,
    MCS_PREEMPT = 5,
    MCS_BY_ORDER = 6
};

/* A row of a schedule. Threads, contexts, notifications and sources are numbered from 0, each in
 * the order of the file; servers are numbered behind the notifications: a thread's MCS_SIGNAL or
 * MCS_GOT at a server is that it leaves or enters it. */
typedef struct mcs_row {
    uint64_t moment; /* the time, in ticks */
    uint64_t core;
    uint64_t kind;
    uint64_t part; /* a thread, context, source or core, by kind; MCS_NONE of MCS_HOLD */
    uint64_t note; /* a notification or server, by kind; else MCS_NONE */
    uint64_t why;  /* of MCS_STOP; else MCS_NONE */
    uint64_t value;
    uint64_t more;
} mcs_row;

/* Simulates the system that a text describes, up to a horizon, and writes its first rows to an
 * array, as many as fit.
 *
 *   Result              *many             *whole_before
 *   MCS_LINES           all rows          horizon + 1
 *   MCS_PART            rows_many         the time of the first row that is missing
 *   MCS_FAULT           0                 0; mcs_run gives the line of the fault
 *   MCS_REFUSED         0                 0; the horizon is above MCS_HORIZON_MAX
 *   MCS_NO_MEMORY       0                 0
 *
 * *many is the number of rows written. All rows before the time *whole_before are among them. Rows
 * of the array behind them are unchanged. The duties are those of mcs_run; calloc is enough. If the
 * array is full, the run ends soon after the first row that is missing, however large the horizon
 * is. */
uint32_t mcs_rows(const uint8_t *text, size_t text_bytes, uint64_t horizon, mcs_row *rows, size_t rows_many, size_t *many, uint64_t *whole_before);

/* The kinds of findings. */
enum {
    MCS_MISS = 0,    /* a round of the thread ended after its deadline */
    MCS_OVERDUE = 1, /* a round that is under way at the horizon can only end after its deadline */
    MCS_LOST = 2,    /* a signal or interrupt at the notification changed nothing */
    MCS_NEVER = 3,   /* no round of a thread with a deadline could begin up to the horizon */
    MCS_UNTAKEN = 4  /* nobody took the notification's word in time: whoever takes it is late */
};

/* A finding of a thread or a notification. A number that its kind does not have is 0. */
typedef struct mcs_finding {
    uint64_t moment; /* the time, in ticks */
    uint64_t core;
    uint64_t kind;
    uint64_t thread;    /* of MCS_MISS, MCS_OVERDUE and MCS_NEVER; else MCS_NONE */
    uint64_t note;      /* of MCS_LOST and MCS_UNTAKEN; else MCS_NONE */
    uint64_t number;    /* the number of the round, from 1, of MCS_MISS and MCS_OVERDUE */
    uint64_t response;  /* of MCS_MISS, from the activation; else the ticks from then to the horizon */
    uint64_t deadline;  /* of the thread; of MCS_UNTAKEN the greatest of those that may take the word */
    uint64_t activated; /* when the round was activated, or when the word of MCS_UNTAKEN was set */
    uint64_t queued;    /* ticks from then until the round before it ended, or the thread started */
    uint64_t word;      /* the notification's word, of MCS_LOST and MCS_UNTAKEN */
    uint64_t ready;     /* ticks from then on, or from the activation: the thread stood ready, */
    uint64_t running;   /* ran, */
    uint64_t throttled; /* was without budget, */
    uint64_t blocked;   /* waited for a word, */
    uint64_t server;    /* and waited for a server that was taken */
} mcs_finding;

/* Writes the findings of threads and notifications to an array: those of the rows in order, then
 * those at the horizon: by thread, and then by notification. Lost signals that mcs_check is told to allow are among them; findings of
 * chains are not.
 *
 *   Result              *many
 *   MCS_LINES           the findings written
 *   MCS_FAULT           0; mcs_check gives the line of the fault
 *   MCS_ROOM            the findings there are; none was written
 *   MCS_REFUSED         0; the horizon is above MCS_HORIZON_MAX
 *   MCS_NO_MEMORY       0
 *
 * The duties are those of mcs_rows. */
uint32_t mcs_findings(const uint8_t *text, size_t text_bytes, uint64_t horizon, mcs_finding *findings, size_t findings_many, size_t *many);

/* The kinds of things that have names: values of `kind`. */
enum {
    MCS_THREAD = 0,
    MCS_CONTEXT = 1,
    MCS_NOTE = 2, /* a notification, or behind these a server */
    MCS_SOURCE = 3,
    MCS_CHAIN = 4
};

/* Writes the name of a thing of the system that a text describes, by its number. It has at most 32
 * bytes.
 *
 *   Result              *length           Room
 *   MCS_LINES           bytes             the name
 *   MCS_FAULT           0                 unchanged; mcs_run gives the line of the fault
 *   MCS_ROOM            bytes needed      unchanged
 *   MCS_REFUSED         0                 unchanged: there is no such thing
 *   MCS_NO_MEMORY       0                 unchanged
 *
 * The duties are those of mcs_run. */
uint32_t mcs_name(const uint8_t *text, size_t text_bytes, uint32_t kind, uint64_t number, uint8_t *room, size_t room_bytes, size_t *length);

#ifdef __cplusplus
}
#endif

#endif
