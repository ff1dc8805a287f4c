/* Reads a table once and plans it with each budget named: plan FILE [BUDGET ..], where FILE - is standard input.
 * Without a budget it takes the table's own. It prints the plans with the fates and the rooms, the listings, then what a
 * call says that refuses, an allocation and a cost table.
 * Exit status: 1 where the table or a budget was refused; 2 where there is no table to read, where a budget is no
 * number, and where the output cannot be written. */
#include <cuddlelamb.h>
#include <inttypes.h>
#include <stdbool.h>
#include <stdio.h>
#include <stdlib.h>
#include <string.h>

/* As many as the program reads; a valid text is shorter. */
enum { MOST_READ = 4096 };

static void print_places(const char *name, const uint64_t *places, uint64_t count) {
    printf("%s:", name);
    for (uint64_t at = 0; at < count; at++) {
        printf(" %" PRIu64, places[at]);
    }
    printf("\n");
}

static void print_refusal(const char *call, uint64_t number, uint64_t line) {
    printf("%s: refused %" PRIu64 ", line %" PRIu64 "\n", call, number, line);
}

/* The plan and the fates with one budget, or its refusal; a fate belongs to the job at its place in the table. */
static bool print_plan(const struct cuddlelamb_table *table, uint64_t budget) {
    uint64_t order[CUDDLELAMB_JOBS] = {0};
    uint64_t fates[CUDDLELAMB_JOBS] = {0};
    struct cuddlelamb_plan_answer plan =
        cuddlelamb_plan(*table, budget, order, CUDDLELAMB_JOBS, fates, CUDDLELAMB_JOBS);
    printf("plan with budget %" PRIu64, budget);
    if (plan.number != 0) {
        print_refusal("", plan.number, plan.line);
        return false;
    }
    printf(": %" PRIu64 " jobs at %" PRIu64 " MHz for %" PRIu64 " units\n", plan.count, plan.speed, plan.energy);
    print_places("order", order, plan.count);
    for (uint64_t at = 0; at < table->job_count; at++) {
        printf("job %" PRIu64 ": fate %" PRIu64 "\n", table->jobs[at].number, fates[at]);
    }
    return true;
}

/* How much of one budget the plan leaves at top cost, after each turn and at the end, or its refusal. */
static bool print_rooms(const struct cuddlelamb_table *table, uint64_t budget) {
    uint64_t turns[CUDDLELAMB_JOBS] = {0};
    uint64_t rooms[CUDDLELAMB_JOBS] = {0};
    struct cuddlelamb_rooms_answer told =
        cuddlelamb_rooms(*table, budget, turns, CUDDLELAMB_JOBS, rooms, CUDDLELAMB_JOBS);
    printf("rooms with budget %" PRIu64, budget);
    if (told.number != 0) {
        print_refusal("", told.number, told.line);
        return false;
    }
    printf(": %" PRIu64 " turns, %" PRIu64 " units left\n", told.turns, told.room);
    for (uint64_t at = 0; at < told.turns; at++) {
        printf("after the turn of job %" PRIu64 ": %" PRIu64 "\n", turns[at], rooms[at]);
    }
    return true;
}

static bool print_plan_and_rooms(const struct cuddlelamb_table *table, uint64_t budget) {
    bool planned = print_plan(table, budget);
    return print_rooms(table, budget) && planned;
}

/* Plan and rooms for each budget, or for the table's own where none is named; whether none was refused. */
static bool print_plans(const struct cuddlelamb_table *table, const uint64_t *budgets, size_t count) {
    if (count == 0) {
        return print_plan_and_rooms(table, table->budget);
    }
    bool good = true;
    for (size_t at = 0; at < count; at++) {
        good = print_plan_and_rooms(table, budgets[at]) && good;
    }
    return good;
}

static void print_listing(const uint8_t *text, size_t length) {
    uint8_t out[CUDDLELAMB_LISTING] = {0};
    struct cuddlelamb_text_answer list = cuddlelamb_list(text, length, out, sizeof out);
    printf("listing: %" PRIu64 " bytes\n", list.length);
    fwrite(out, 1, list.length, stdout);
}

/* A refused budget has a listing too, as a refused text has. */
static void print_listing_with_budget(const uint8_t *text, size_t length, uint64_t budget) {
    uint8_t out[CUDDLELAMB_LISTING] = {0};
    struct cuddlelamb_text_answer list = cuddlelamb_list_with_budget(text, length, budget, out, sizeof out);
    printf("listing with budget %" PRIu64 ": %" PRIu64 " bytes\n", budget, list.length);
    fwrite(out, 1, list.length, stdout);
}

/* A refusal changes nothing in the lent buffers. */
static void print_short_buffer(const struct cuddlelamb_table *table) {
    uint64_t order[3] = {7, 8, 9};
    uint64_t fates[CUDDLELAMB_JOBS] = {0};
    struct cuddlelamb_plan_answer plan = cuddlelamb_plan(*table, table->budget, order, 3, fates, CUDDLELAMB_JOBS);
    if (plan.number == CUDDLELAMB_REFUSED_NO_ROOM) {
        print_refusal("plan with an order buffer of 3 places", plan.number, plan.line);
    }
    print_places("the buffer", order, 3);
}

static void print_allocation(uint64_t mean, uint64_t variance, uint64_t assurance) {
    struct cuddlelamb_cycles_answer allocation = cuddlelamb_allocate(mean, variance, assurance);
    printf("allocation of %" PRIu64 ", %" PRIu64 ", %" PRIu64, mean, variance, assurance);
    if (allocation.number != 0) {
        print_refusal("", allocation.number, allocation.line);
    } else {
        printf(": %" PRIu64 "\n", allocation.cycles);
    }
}

static void print_costs(uint64_t model) {
    struct cuddlelamb_costs_answer supplied = cuddlelamb_costs(model);
    printf("costs of model %" PRIu64, model);
    if (supplied.number != 0) {
        print_refusal("", supplied.number, supplied.line);
    } else {
        print_places("", supplied.costs, CUDDLELAMB_COSTS);
    }
}

/* Everything about one text; whether neither it nor a budget was refused. */
static bool print_all(const uint8_t *text, size_t length, const uint64_t *budgets, size_t count) {
    struct cuddlelamb_table_answer read = cuddlelamb_read(text, length);
    bool good = read.number == 0;
    if (good) {
        good = print_plans(&read.table, budgets, count);
    } else {
        print_refusal("read", read.number, read.line);
        if (read.number == CUDDLELAMB_REFUSED_NO_SHAPE) {
            fprintf(stderr, "plan: fields are parted by one tab, and every line ends with a line feed\n");
        }
    }
    print_listing(text, length);
    if (count > 0) {
        print_listing_with_budget(text, length, budgets[count - 1]);
    }
    print_short_buffer(&read.table);
    print_allocation(100, 100, 900);
    print_allocation(1000000, 1, 500);
    print_costs(3);
    print_costs(4);
    return good;
}

/* A number is digits with no leading zero, and at most UINT64_MAX. */
static bool read_number(const char *word, uint64_t *number) {
    if (word[0] == '\0' || (word[0] == '0' && word[1] != '\0')) {
        return false;
    }
    *number = 0;
    for (; *word >= '0' && *word <= '9'; word++) {
        uint64_t digit = (uint64_t)(*word - '0');
        if (*number > (UINT64_MAX - digit) / 10) {
            return false;
        }
        *number = *number * 10 + digit;
    }
    return *word == '\0';
}

/* Whether every word is a number. */
static bool read_numbers(char **words, size_t count, uint64_t *numbers) {
    for (size_t at = 0; at < count; at++) {
        if (!read_number(words[at], &numbers[at])) {
            return false;
        }
    }
    return true;
}

/* The front of a file or of standard input. Where reading fails, what came before is no table. */
static bool read_text(const char *name, uint8_t *text, size_t room, size_t *length) {
    FILE *file = stdin;
    if (strcmp(name, "-") == 0) {
        name = "standard input";
    } else {
        file = fopen(name, "rb");
    }
    if (file == NULL) {
        perror(name);
        return false;
    }
    *length = fread(text, 1, room, file);
    bool good = !ferror(file);
    if (!good) {
        perror(name);
    }
    fclose(file);
    return good;
}

int main(int count, char **arguments) {
    static uint8_t text[MOST_READ];
    size_t length = 0, budget_count = count > 2 ? (size_t)count - 2 : 0;
    uint64_t *budgets = malloc((budget_count + 1) * sizeof *budgets);
    if (budgets == NULL) {
        perror("plan");
        return 2;
    }
    if (count < 2 || !read_numbers(arguments + 2, budget_count, budgets)) {
        fprintf(stderr, "usage: plan FILE [BUDGET ..]\n");
        return 2;
    }
    if (!read_text(arguments[1], text, sizeof text, &length)) {
        return 2;
    }
    bool good = print_all(text, length, budgets, budget_count);
    free(budgets);
    if (fflush(stdout) != 0 || ferror(stdout)) {
        fprintf(stderr, "plan: the output cannot be written\n");
        return 2;
    }
    return good ? 0 : 1;
}
