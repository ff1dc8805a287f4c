/* Cuddlelamb's calls for C11 and C++11 or later, in the archive libcuddlelamb.a, which ./install puts beside this header; in the
 * tree it is target/staticlib/libboundary.a.
 *
 * What every call keeps:
 * - It takes any bytes, any numbers and any lengths; there is no input for which its answer is left open.
 * - Its answer begins with `number` and `line`. Both are 0 where nothing is refused. Otherwise they are the refusal's
 *   number, 1 to 10, and the line of the text that it names, counted from 1, or for a table the line that its record would
 *   have had (1 for the budget beside it), or 0 where no line is meant; all other values of the answer are then 0, and no
 *   byte and no place of a lent buffer has changed.
 * - It answers the same for the same input. It keeps nothing from one call to the next, does not use the heap, and may be
 *   called from several threads at once, each with buffers of its own.
 *
 * What the caller sees to:
 * - A buffer is a pointer and a length in places of its type. The pointer is never NULL and is aligned for its type, also
 *   where the length is 0: any address will do then, as that of a local variable.
 * - A buffer is at most PTRDIFF_MAX bytes long, all of its places may be read, and those of a buffer that is not const may
 *   be written; it holds something (set it to 0, say) before it is lent. No two buffers of a call overlap.
 * - There are 16,000 bytes of stack left: measured, not proved. The most, some 15,100, is what the two calls that list take;
 *   the others take some 13,000 at most, a table that is handed over counted in.
 *
 * What the archive needs:
 * - x86-64 with 64-bit pointers and the System V calling convention, as gcc and clang have it on Linux. Any such processor
 *   will do: of its vector instructions only SSE and SSE2 are used. The code is position independent: it may go into a
 *   program, with -pie or without, and into a shared library.
 * - From the C library, or whatever else it is linked with, and nothing else: memcpy, memmove, memset.
 *   So no heap, no locale, no file, no thread, no clock; it has no data that is written to, and nothing to start or to end. */
#ifndef CUDDLELAMB_H
#define CUDDLELAMB_H

#include <stddef.h>
#include <stdint.h>

/* The version of this header and of the archive beside it; CHANGELOG.md says what each version holds. */
#define CUDDLELAMB_VERSION_MAJOR 4
#define CUDDLELAMB_VERSION_MINOR 5
#define CUDDLELAMB_VERSION "4.5"

#ifdef __cplusplus
extern "C" {
#endif

enum {
    CUDDLELAMB_SPEEDS = 16,  /* places for F lines in a table */
    CUDDLELAMB_JOBS = 64,    /* places for J lines, and the least length of an order, fate, turn or room buffer */
    CUDDLELAMB_HOLDS = 32,   /* places for H lines */
    CUDDLELAMB_COSTS = 7,    /* costs of a supplied model */
    CUDDLELAMB_TEXT = 3653,  /* bytes of the longest valid text: room enough for cuddlelamb_write */
    CUDDLELAMB_LISTING = 1118 /* bytes of the longest listing: room enough for the two calls that list */
};

/* The fates of a job. */
enum {
    CUDDLELAMB_PLANNED = 1,
    CUDDLELAMB_LATE_ALONE = 2,    /* could not end by its termination even if it ran alone at top speed */
    CUDDLELAMB_DEADLOCK = 3,      /* taken out of a ring of waiting jobs */
    CUDDLELAMB_NO_RATIO = 4,      /* its chain gives no worth */
    CUDDLELAMB_OUT_OF_TIME = 5,   /* with its chain, some entry would end after its termination */
    CUDDLELAMB_OUT_OF_BUDGET = 6  /* with its chain, the plan would cost more than the budget */
};

/* The refusals: an answer's `number`, where it is not 0. The first bad line decides; within a line, the lowest number in the
 * order 1 to 7. */
enum {
    CUDDLELAMB_REFUSED_NO_SHAPE = 1,                   /* the line has none of the four shapes: letter, field count, an empty
                                                        * field, a byte that is no digit, a leading zero, a 17th digit, no
                                                        * line feed at the end */
    CUDDLELAMB_REFUSED_OUT_OF_RANGE = 2,               /* a number is outside its range */
    CUDDLELAMB_REFUSED_OUT_OF_PLACE = 3,               /* the line may not stand here or its first number does not rise; or the
                                                        * text ends before an F has been read, and then the line is one
                                                        * after the last */
    CUDDLELAMB_REFUSED_TOO_MANY = 4,                   /* a 17th F or a 65th J */
    CUDDLELAMB_REFUSED_CRITICAL_AFTER_TERMINATION = 5, /* critical is after termination */
    CUDDLELAMB_REFUSED_UNKNOWN_JOB = 6,                /* H names a job that is not in the table */
    CUDDLELAMB_REFUSED_REQUESTS_OWN = 7,               /* the holder requests the resource it holds */
    CUDDLELAMB_REFUSED_NO_ROOM = 8,                    /* a lent buffer is too small */
    CUDDLELAMB_REFUSED_UNKNOWN_MODEL = 9,              /* a cost model other than 1, 2, 3 */
    CUDDLELAMB_REFUSED_TOO_MUCH_ALLOCATED = 10         /* an allocation above 1,000,000 */
};

/* An F line. */
struct cuddlelamb_speed {
    uint64_t mhz;  /* 1..4,000 */
    uint64_t cost; /* 1..4,000,000 units per million cycles */
};

/* A J line. */
struct cuddlelamb_job {
    uint64_t number;      /* 1..9,999 */
    uint64_t cycles;      /* 1..1,000,000 million cycles */
    uint64_t worth;       /* 0..1,000,000 */
    uint64_t critical;    /* 0..1,000,000,000 ms */
    uint64_t termination; /* 0..1,000,000,000 ms */
    uint64_t request;     /* 0..32; 0 asks for nothing */
};

/* An H line. */
struct cuddlelamb_hold {
    uint64_t resource; /* 1..32 */
    uint64_t holder;   /* 1..9,999 */
};

/* A table: the T line, the counts of the other lines, and of each letter the first so many places. */
struct cuddlelamb_table {
    uint64_t clock;  /* 0..1,000,000,000 ms */
    uint64_t budget; /* 0..10^15 units; cuddlelamb_plan and cuddlelamb_rooms plan with the one beside the table */
    uint64_t speed_count;
    uint64_t job_count;
    uint64_t hold_count;
    struct cuddlelamb_speed speeds[CUDDLELAMB_SPEEDS];
    struct cuddlelamb_job jobs[CUDDLELAMB_JOBS];
    struct cuddlelamb_hold holds[CUDDLELAMB_HOLDS];
};

struct cuddlelamb_plan_answer {
    uint64_t number;
    uint64_t line;
    uint64_t count;  /* how many jobs are planned */
    uint64_t speed;  /* MHz */
    uint64_t energy; /* units */
};

struct cuddlelamb_rooms_answer {
    uint64_t number;
    uint64_t line;
    uint64_t turns; /* how many turns there were */
    uint64_t room;  /* units left at the end, at top cost */
};

struct cuddlelamb_text_answer {
    uint64_t number;
    uint64_t line;
    uint64_t length; /* how many bytes were written */
};

struct cuddlelamb_table_answer {
    uint64_t number;
    uint64_t line;
    struct cuddlelamb_table table;
};

struct cuddlelamb_cycles_answer {
    uint64_t number;
    uint64_t line;
    uint64_t cycles;
};

struct cuddlelamb_costs_answer {
    uint64_t number;
    uint64_t line;
    uint64_t costs[CUDDLELAMB_COSTS];
};

#ifdef __cplusplus
#define CUDDLELAMB_SIZE(type, size) static_assert(sizeof(struct type) == (size), "the size of " #type)
#else
#define CUDDLELAMB_SIZE(type, size) _Static_assert(sizeof(struct type) == (size), "the size of " #type)
#endif
CUDDLELAMB_SIZE(cuddlelamb_speed, 16);
CUDDLELAMB_SIZE(cuddlelamb_job, 48);
CUDDLELAMB_SIZE(cuddlelamb_hold, 16);
CUDDLELAMB_SIZE(cuddlelamb_table, 3880);
CUDDLELAMB_SIZE(cuddlelamb_plan_answer, 40);
CUDDLELAMB_SIZE(cuddlelamb_rooms_answer, 32);
CUDDLELAMB_SIZE(cuddlelamb_text_answer, 24);
CUDDLELAMB_SIZE(cuddlelamb_table_answer, 3896);
CUDDLELAMB_SIZE(cuddlelamb_cycles_answer, 24);
CUDDLELAMB_SIZE(cuddlelamb_costs_answer, 72);
#undef CUDDLELAMB_SIZE

/* Reads a text: the table has the text's records, in their order, and 0 in every unused place.
 * Refused 1 to 7, with the first bad line; the table is then all 0, which cuddlelamb_plan, cuddlelamb_rooms and
 * cuddlelamb_write refuse. */
struct cuddlelamb_table_answer cuddlelamb_read(const uint8_t *text, size_t text_length);

/* Plans a table with the budget given beside it, in the place of the table's own. The first `count` places of `order` are
 * the planned jobs' numbers in the order in which they run, and all places after them are 0. The places of `fates` are the
 * fates of the jobs in the order of the J lines, and all places after the last job are 0. `speed` is, of the speeds at which
 * every planned job ends by its termination and the energy is within budget, the one with the least energy, and among equals
 * the lowest; where nothing is planned, it is the first speed, and the energy is 0.
 * The table may be any: one that was read, which may so be planned again and again with other budgets, or one put together
 * by hand. It is not changed, and its unused places may hold anything. The budget may be any number.
 * Refused in this order: 8 with line 0, where `order` or `fates` has fewer than 64 places. Then 2 with line 1, where the
 * budget beside the table is above 10^15. Then 2 to 7 as cuddlelamb_write refuses the table's records, the first of which is
 * the T: the table's own budget is checked too, and after that it is not looked at. */
struct cuddlelamb_plan_answer cuddlelamb_plan(struct cuddlelamb_table table, uint64_t budget, uint64_t *order,
                                              size_t order_length, uint64_t *fates, size_t fates_length);

/* Plans a table as cuddlelamb_plan does and tells how much room is left after each turn: the budget given beside the table
 * less what all cycles of the plan, as it then stands, cost at the last F. Each job that is neither late alone nor taken out
 * of a ring has a turn. The first places of the buffer `turns`, as many as the answer's `turns` says, are these jobs' numbers
 * in the order of their turns, as many places of `rooms` are the room after each, and all places after them are 0. A turn in
 * which nothing comes into the plan leaves the room as it was, be it that the job is planned already, that its chain gives
 * no worth, or that it would be out of time or of budget. The answer's `room` is what the final plan leaves; where nothing
 * is planned, that is the whole budget.
 * Refused as cuddlelamb_plan is, in the same order: 8 with line 0, where `turns` or `rooms` has fewer than 64 places. Then 2
 * with line 1, where the budget beside the table is above 10^15. Then 2 to 7 as cuddlelamb_write refuses the records. */
struct cuddlelamb_rooms_answer cuddlelamb_rooms(struct cuddlelamb_table table, uint64_t budget, uint64_t *turns,
                                                size_t turns_length, uint64_t *rooms, size_t rooms_length);

/* Plans a text with its own budget and writes the listing to the front of `out`; the bytes after it stay as they were. The
 * listing is a line "P speed energy count", for each planned job in order a line "O job finish", and for each other job in
 * the order of the J lines a line "X job fate", with one tab between fields and a line feed after each line. A text that is
 * refused has a listing too, the one line "R number line", and the answer's own number is then 0.
 * Refused: 8 with line 0, where the listing is longer than `out`. */
struct cuddlelamb_text_answer cuddlelamb_list(const uint8_t *text, size_t text_length, uint8_t *out, size_t out_length);

/* Does as cuddlelamb_list does, but plans the text with the budget given beside it, in the place of its own. A text that is
 * refused has its line "R number line". Where the text is not refused and the budget beside it is above 10^15, the listing
 * is the one line "R 2 1", and the answer's own number is 0 here too.
 * Refused: 8 with line 0, where the listing is longer than `out`. */
struct cuddlelamb_text_answer cuddlelamb_list_with_budget(const uint8_t *text, size_t text_length, uint64_t budget,
                                                          uint8_t *out, size_t out_length);

/* Writes a table's text to the front of `out`; the bytes after it stay as they were. What cuddlelamb_read makes of that
 * text is a table with the same records. Unused places may hold anything.
 * Refused first for a record: 2 to 7, with the line the record would have had; a table with no F: 3, line 2; where a count
 * is beyond the table's places, the first record beyond: 4 for F and J, 3 for H. Then 8 with line 0, where the text is
 * longer than `out`. */
struct cuddlelamb_text_answer cuddlelamb_write(struct cuddlelamb_table table, uint8_t *out, size_t out_length);

/* Allocates cycles: the least whole c, the mean or more, with (c - mean)^2 * (1000 - assurance) >= assurance * variance.
 * Refused with line 0: 2, where the mean is not in 1..1,000,000, the variance not in 0..10^12 or the assurance (in
 * thousandths) not in 0..999; 10, where c would be above 1,000,000. */
struct cuddlelamb_cycles_answer cuddlelamb_allocate(uint64_t mean, uint64_t variance, uint64_t assurance);

/* The seven costs of model 1, 2 or 3, for the speeds 360, 550, 640, 730, 820, 910 and 1000 MHz in this order.
 * Refused: 9 with line 0, for any other model. */
struct cuddlelamb_costs_answer cuddlelamb_costs(uint64_t model);

#ifdef __cplusplus
}
#endif

#endif
