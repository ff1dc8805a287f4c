/* Answers calls of Cuddlelamb for a process that cannot link the archive: requests on standard input, answers on standard
 * output, until the input ends. rust/check/src/served.rs is the other side.
 *
 * Both ways go frames: the length of what follows in bytes, and then any number of requests, or their answers in the same
 * order. A number, a length and a place of an order, fate, turn or room buffer are 8 bytes, the lowest first; a table is
 * 485 numbers in the order of its struct. A frame is read whole before the first answer is written, so neither side waits
 * for the other to make room.
 *
 *   request                                                          answer
 *   1, text length, text                                              number, line, table
 *   2, table, budget, order length, fates length, order, fates        number, line, count, speed, energy, order, fates
 *   3, table, budget, turns length, rooms length, turns, rooms        number, line, count, room, turns, rooms
 *   4, text length, out length, text, out                             number, line, length, out
 *   5, budget, text length, out length, text, out                     number, line, length, out
 *   6, table, out length, out                                         number, line, length, out
 *   7, mean, variance, assurance                                      number, line, cycles
 *   8, model                                                          number, line, seven costs
 */
#include <cuddlelamb.h>
#include <stdio.h>
#include <stdlib.h>
#include <string.h>

enum { READ = 1, PLAN, ROOMS, LIST, LIST_WITH_BUDGET, WRITE, ALLOCATE, COSTS };

struct frame {
    uint8_t *bytes;
    size_t length, room;
};

static void stop(const char *why) {
    fprintf(stderr, "serve: %s\n", why);
    exit(1);
}

/* At least one byte, so that the address is never NULL. */
static void *memory(size_t length) {
    void *bytes = malloc(length + 1);
    if (bytes == NULL) {
        stop("out of memory");
    }
    return bytes;
}

/* Takes the next bytes from the front of what is left of a frame. */
static void take(struct frame *from, void *bytes, size_t length) {
    if (length > from->length) {
        stop("a request goes beyond its frame");
    }
    memcpy(bytes, from->bytes, length);
    from->bytes += length;
    from->length -= length;
}

static uint64_t take_number(struct frame *from) {
    uint64_t number;
    take(from, &number, sizeof number);
    return number;
}

static void *take_buffer(struct frame *from, size_t length) {
    if (length > from->length) {
        stop("a buffer goes beyond its frame");
    }
    void *bytes = memory(length);
    take(from, bytes, length);
    return bytes;
}

static void give(struct frame *to, const void *bytes, size_t length) {
    if (length > to->room - to->length) {
        to->room = 2 * (to->length + length);
        to->bytes = realloc(to->bytes, to->room);
        if (to->bytes == NULL) {
            stop("out of memory");
        }
    }
    memcpy(to->bytes + to->length, bytes, length);
    to->length += length;
}

static void read_table(struct frame *from, struct frame *to) {
    size_t text_length = take_number(from);
    uint8_t *text = take_buffer(from, text_length);
    struct cuddlelamb_table_answer answer = cuddlelamb_read(text, text_length);
    give(to, &answer, sizeof answer);
    free(text);
}

static void plan(struct frame *from, struct frame *to) {
    struct cuddlelamb_table table;
    take(from, &table, sizeof table);
    uint64_t budget = take_number(from);
    size_t order_length = take_number(from), fates_length = take_number(from);
    uint64_t *order = take_buffer(from, order_length * sizeof *order);
    uint64_t *fates = take_buffer(from, fates_length * sizeof *fates);
    struct cuddlelamb_plan_answer answer = cuddlelamb_plan(table, budget, order, order_length, fates, fates_length);
    give(to, &answer, sizeof answer);
    give(to, order, order_length * sizeof *order);
    give(to, fates, fates_length * sizeof *fates);
    free(order);
    free(fates);
}

static void rooms(struct frame *from, struct frame *to) {
    struct cuddlelamb_table table;
    take(from, &table, sizeof table);
    uint64_t budget = take_number(from);
    size_t turns_length = take_number(from), rooms_length = take_number(from);
    uint64_t *turns = take_buffer(from, turns_length * sizeof *turns);
    uint64_t *rooms = take_buffer(from, rooms_length * sizeof *rooms);
    struct cuddlelamb_rooms_answer answer = cuddlelamb_rooms(table, budget, turns, turns_length, rooms, rooms_length);
    give(to, &answer, sizeof answer);
    give(to, turns, turns_length * sizeof *turns);
    give(to, rooms, rooms_length * sizeof *rooms);
    free(turns);
    free(rooms);
}

static void list(struct frame *from, struct frame *to) {
    size_t text_length = take_number(from), out_length = take_number(from);
    uint8_t *text = take_buffer(from, text_length);
    uint8_t *out = take_buffer(from, out_length);
    struct cuddlelamb_text_answer answer = cuddlelamb_list(text, text_length, out, out_length);
    give(to, &answer, sizeof answer);
    give(to, out, out_length);
    free(text);
    free(out);
}

static void list_with_budget(struct frame *from, struct frame *to) {
    uint64_t budget = take_number(from);
    size_t text_length = take_number(from), out_length = take_number(from);
    uint8_t *text = take_buffer(from, text_length);
    uint8_t *out = take_buffer(from, out_length);
    struct cuddlelamb_text_answer answer = cuddlelamb_list_with_budget(text, text_length, budget, out, out_length);
    give(to, &answer, sizeof answer);
    give(to, out, out_length);
    free(text);
    free(out);
}

static void write_table(struct frame *from, struct frame *to) {
    struct cuddlelamb_table table;
    take(from, &table, sizeof table);
    size_t out_length = take_number(from);
    uint8_t *out = take_buffer(from, out_length);
    struct cuddlelamb_text_answer answer = cuddlelamb_write(table, out, out_length);
    give(to, &answer, sizeof answer);
    give(to, out, out_length);
    free(out);
}

static void allocate(struct frame *from, struct frame *to) {
    uint64_t mean = take_number(from), variance = take_number(from), assurance = take_number(from);
    struct cuddlelamb_cycles_answer answer = cuddlelamb_allocate(mean, variance, assurance);
    give(to, &answer, sizeof answer);
}

static void costs(struct frame *from, struct frame *to) {
    struct cuddlelamb_costs_answer answer = cuddlelamb_costs(take_number(from));
    give(to, &answer, sizeof answer);
}

static void answer_request(struct frame *from, struct frame *to) {
    switch (take_number(from)) {
    case READ: read_table(from, to); break;
    case PLAN: plan(from, to); break;
    case ROOMS: rooms(from, to); break;
    case LIST: list(from, to); break;
    case LIST_WITH_BUDGET: list_with_budget(from, to); break;
    case WRITE: write_table(from, to); break;
    case ALLOCATE: allocate(from, to); break;
    case COSTS: costs(from, to); break;
    default: stop("an unknown request");
    }
}

int main(void) {
    struct frame answers = {0};
    uint64_t length;
    while (fread(&length, sizeof length, 1, stdin) == 1) {
        uint8_t *bytes = memory(length);
        if (fread(bytes, 1, length, stdin) != length) {
            stop("a frame ends too soon");
        }
        struct frame requests = {bytes, length, length};
        answers.length = 0;
        while (requests.length > 0) {
            answer_request(&requests, &answers);
        }
        length = answers.length;
        fwrite(&length, sizeof length, 1, stdout);
        fwrite(answers.bytes, 1, answers.length, stdout);
        if (fflush(stdout) != 0) {
            stop("cannot answer");
        }
        free(bytes);
    }
    free(answers.bytes);
    return 0;
}
