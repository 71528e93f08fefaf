/* Measures the stack that each call of the library takes, and holds it to what bandrolt.h says.
   A call runs on a stack of its own that was filled with a pattern before. */

#define _XOPEN_SOURCE 700
#include <pthread.h>
#include <stdio.h>
#include <stdlib.h>
#include <string.h>

#include "bandrolt.h"
#include "recipe.h"

enum {
    STACK = 1 << 22,
    PATTERN = 0xA5,
    FIELD = 68,
    RECORD = 205,
    ENTRY = 613,
    MOST = 1024,
    DEPTH = 4,
    LEVELS = 215,
    MODELS = 431
};

static uint8_t table[RECORD * MOST], output[RECORD * MOST], companion[ENTRY * MOST];
static recipe cycle, ports, sample_r, factors;

/* Parameters p0000 to p1023, the later ones first: the most records, and none in order. */
static void fill_table(void) {
    for (int i = 0; i < MOST; i++) {
        table[i * RECORD] = 3;
        snprintf((char *)table + i * RECORD + 1, 6, "p%04d", MOST - 1 - i);
    }
}

/* The recipes that lead each part of a call deepest. */
static void fill_recipes(void) {
    char name[NAME], next[NAME];

    /* The longest cycle of models that a recipe can hold: its heights are settled one inside the other. */
    for (int i = 0; i < MODELS; i++) {
        snprintf(name, sizeof name, "m%d", i);
        snprintf(next, sizeof next, "m%d", (i + 1) % MODELS);
        put_model(&cycle, name);
        put_submodel(&cycle, "x", next);
    }

    /* The longest way from port to port that a recipe can hold. */
    put_model(&ports, "top");
    for (int i = 1; i < LEVELS; i++) {
        snprintf(name, sizeof name, "m%d", i);
        snprintf(next, sizeof next, "m%d", i + 1);
        put_model(&ports, name);
        put_submodel(&ports, "a", next);
        put_port(&ports, "p", "a", 1, "p");
    }
    put_model(&ports, next);
    put_element(&ports, "v", 1, "", "");
    put_port(&ports, "p", "", 0, "v");

    /* One that is accepted and written. */
    put_sample_r(&sample_r);

    /* A factor on each of four levels, and a reaction below them. */
    for (int i = 0; i < DEPTH; i++) {
        snprintf(name, sizeof name, "m%d", i);
        snprintf(next, sizeof next, "m%d", i + 1);
        put_model(&factors, name);
        put_element(&factors, "f", 3, "", "");
        put_submodel(&factors, "a", next);
        put_factors(&factors, "a", "f", "f");
    }
    put_model(&factors, next);
    put_element(&factors, "r", 4, "", "");
}

static void *check_table(void *holds) {
    bandrolt_table_answer answer = bandrolt_check_table(table, sizeof table);
    *(int *)holds = answer.number == 0 && answer.count == MOST;
    return NULL;
}

static void *flatten(void *holds) {
    bandrolt_answer answer = bandrolt_flatten(cycle.bytes, cycle.length, output, sizeof output);
    *(int *)holds = answer.number == 6 && answer.place == 0;
    answer = bandrolt_flatten(ports.bytes, ports.length, output, sizeof output);
    *(int *)holds &= answer.number == 0 && answer.count == 0;
    answer = bandrolt_flatten(sample_r.bytes, sample_r.length, output, sizeof output);
    *(int *)holds &= answer.number == 0 && answer.count == 2;
    return NULL;
}

static int is_sized(const recipe *r, uint64_t number, uint64_t count, uint64_t longest) {
    bandrolt_size size = bandrolt_table_size(r->bytes, r->length);
    return size.number == number && size.count == count && size.longest == longest;
}

static void *table_size(void *holds) {
    *(int *)holds = is_sized(&cycle, 6, 0, 0) && is_sized(&ports, 0, 0, 0) && is_sized(&sample_r, 0, 2, 4) &&
                    is_sized(&factors, 0, DEPTH + 1, DEPTH * 3 + 1);
    return NULL;
}

/* With factors, the number that is answered, and the counts. */
static int gives(const recipe *r, uint64_t number, uint64_t count, uint64_t entries) {
    bandrolt_factors_answer answer =
        bandrolt_flatten_with_factors(r->bytes, r->length, output, sizeof output, companion, sizeof companion);
    return answer.number == number && answer.count == count && answer.entries == entries;
}

static void *flatten_with_factors(void *holds) {
    *(int *)holds = gives(&cycle, 6, 0, 0) && gives(&ports, 0, 0, 0) && gives(&sample_r, 0, 2, 0) &&
                    gives(&factors, 0, DEPTH + 1, 1);
    return NULL;
}

static void *walk_back(void *holds) {
    static const uint8_t name[FIELD] = "a__s";
    bandrolt_origin origin = bandrolt_walk_back(cycle.bytes, cycle.length, name, FIELD);
    *(int *)holds = origin.number == 6 && origin.place == 0;
    origin = bandrolt_walk_back(ports.bytes, ports.length, name, FIELD);
    *(int *)holds &= origin.number == 18 && origin.place == 0;
    origin = bandrolt_walk_back(sample_r.bytes, sample_r.length, name, FIELD);
    *(int *)holds &= origin.number == 0 && origin.depth == 1 && origin.element == 165;
    return NULL;
}

static void *nothing(void *unused) { return unused; }

/* The bytes of a fresh stack that a thread leaves touched. */
static size_t touched(void *(*work)(void *), void *argument) {
    uint8_t *stack = aligned_alloc(4096, STACK);
    pthread_attr_t attributes;
    pthread_t thread;
    size_t untouched = 0;

    if (stack == NULL) exit(2);
    memset(stack, PATTERN, STACK);
    pthread_attr_init(&attributes);
    if (pthread_attr_setstack(&attributes, stack, STACK) != 0) exit(2);
    if (pthread_create(&thread, &attributes, work, argument) != 0) exit(2);
    pthread_join(thread, NULL);
    while (untouched < STACK && stack[untouched] == PATTERN) untouched++;
    free(stack);
    return STACK - untouched;
}

/* Whether a call answers as it must, within the stack that is promised for it. */
static int measure(const char *name, void *(*call)(void *), size_t promised) {
    int holds = 0;
    size_t bytes = touched(call, &holds) - touched(nothing, NULL);

    printf("%s took %zu bytes of stack, %zu are promised\n", name, bytes, promised);
    return holds && bytes < promised;
}

int main(void) {
    int passed;

    fill_table();
    fill_recipes();
    passed = measure("bandrolt_check_table", check_table, BANDROLT_CHECK_TABLE_STACK);
    passed += measure("bandrolt_flatten", flatten, BANDROLT_FLATTEN_STACK);
    passed += measure("bandrolt_table_size", table_size, BANDROLT_TABLE_SIZE_STACK);
    passed += measure("bandrolt_flatten_with_factors", flatten_with_factors, BANDROLT_FLATTEN_WITH_FACTORS_STACK);
    passed += measure("bandrolt_walk_back", walk_back, BANDROLT_WALK_BACK_STACK);
    printf("%d passed, %d failed\n", passed, 5 - passed);
    return passed != 5;
}
