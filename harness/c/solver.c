/* Plays the solver: asks how large the tables of recipes will be, has them flattened, with their factors, too, and the tables
   checked, hands tables of its own to the check, and asks where flat names come from.
   `solver` compares the answers with 01's and 02's; `solver size FILE` says how large the table of a recipe's bytes will be,
   `solver recipe FILE` flattens them and checks the table, `solver table FILE` checks a table; each has status 1 if it is
   refused. */

#include "bandrolt.h"
#include "recipe.h"

#include <inttypes.h>
#include <stdio.h>
#include <stdlib.h>
#include <string.h>

enum { FIELD = 68, RECORD = 205, ENTRY = 613, MAX_RECORDS = 1024, PATTERN = 0xA5 };

static int passed, failed;

static void *allocate(size_t length)
{
    void *bytes = malloc(length);
    if (bytes == NULL) {
        fputs("out of memory\n", stderr);
        exit(2);
    }
    return bytes;
}

/* A copy in a block with no byte to spare, so that valgrind sees a call read beyond it; null for length 0. */
static uint8_t *lend(const uint8_t *bytes, size_t length)
{
    uint8_t *lent = length > 0 ? allocate(length) : NULL;
    if (lent != NULL) memcpy(lent, bytes, length);
    return lent;
}

/* An output in such a block, filled with the pattern. */
static uint8_t *lend_output(size_t room)
{
    uint8_t *lent = room > 0 ? allocate(room) : NULL;
    if (lent != NULL) memset(lent, PATTERN, room);
    return lent;
}

/* Whether an output has these bytes at its beginning, and the pattern behind them. */
static int is_written(const uint8_t *output, size_t room, const uint8_t *bytes, size_t length)
{
    int holds = length <= room && (length == 0 || memcmp(output, bytes, length) == 0);
    for (size_t i = length; i < room; i++) {
        holds = holds && output[i] == PATTERN;
    }
    return holds;
}

/* Writes the record with this index; each text has at most 68 characters. */
static void put(uint8_t *table, size_t index, uint8_t class_byte,
                const char *name, const char *parent, const char *reference)
{
    uint8_t *record = table + index * RECORD;
    memset(record, 0, RECORD);
    record[0] = class_byte;
    memcpy(record + 1, name, strlen(name));
    memcpy(record + 1 + FIELD, parent, strlen(parent));
    memcpy(record + 1 + 2 * FIELD, reference, strlen(reference));
}

static void expect(const char *what, const uint8_t *table, size_t length,
                   uint64_t number, uint64_t place, uint64_t count)
{
    uint8_t *given = lend(table, length);
    bandrolt_table_answer answer = bandrolt_check_table(given, length);
    int unchanged = length == 0 || memcmp(given, table, length) == 0;
    free(given);

    if (answer.number == number && answer.place == place && answer.count == count && unchanged) {
        passed++;
    } else {
        failed++;
        printf("FAILED: %s: number %" PRIu64 ", place %" PRIu64 ", count %" PRIu64 "%s\n", what,
               answer.number, answer.place, answer.count, unchanged ? "" : ", table changed");
    }
}

static void check_own_tables(void)
{
    uint8_t *table = allocate((MAX_RECORDS + 1) * RECORD);

    expect("null with length 0", NULL, 0, 0, 0, 0);

    put(table, 0, 1, "c", "", "");
    put(table, 1, 2, "a__s", "", "c");
    expect("sample R", table, 2 * RECORD, 0, 0, 2);
    expect("its first record", table, RECORD, 0, 0, 1);
    expect("204 bytes", table, RECORD - 1, 14, 0, 0);
    expect("206 bytes", table, RECORD + 1, 14, 0, 0);

    put(table, 1, 2, "a__s", "", "d");
    expect("sample R with reference d", table, 2 * RECORD, 17, 205, 0);

    put(table, 1, 1, "c", "", "");
    expect("a repeated name", table, 2 * RECORD, 16, 205, 0);

    put(table, 1, 3, "9a", "", "");
    expect("a name that begins with a digit", table, 2 * RECORD, 15, 205, 0);

    put(table, 1, 8, "a", "", "");
    expect("class 8", table, 2 * RECORD, 15, 205, 0);

    put(table, 1, 3, "a", "", "");
    table[RECORD + FIELD] = 'z';
    expect("a byte after the padding", table, 2 * RECORD, 15, 205, 0);

    put(table, 0, 7, "k", "r", "");
    put(table, 1, 4, "r", "", "");
    expect("a later parent", table, 2 * RECORD, 17, 0, 0);

    put(table, 0, 4, "r", "", "c");
    put(table, 1, 7, "k", "r", "");
    put(table, 2, 1, "c", "", "");
    expect("a later reference", table, 3 * RECORD, 0, 0, 3);

    for (size_t i = 0; i <= MAX_RECORDS; i++) {
        char name[FIELD + 1];
        snprintf(name, sizeof name, "p%067zu", i);
        put(table, i, 3, name, "", "");
    }
    expect("1,024 records", table, MAX_RECORDS * RECORD, 0, 0, MAX_RECORDS);
    expect("1,025 records", table, (MAX_RECORDS + 1) * RECORD, 14, 0, 0);

    free(table);
}

/* Flattens into `room` bytes and checks the table, which must be `table` where the recipe is accepted. */
static void expect_flat(const char *what, const recipe *r, size_t room, uint64_t number, uint64_t place,
                        const uint8_t *table, uint64_t count)
{
    uint8_t *given = lend(r->bytes, r->length);
    uint8_t *output = lend_output(room);
    size_t bytes = (size_t)count * RECORD;
    int holds;

    bandrolt_answer answer = bandrolt_flatten(given, r->length, output, room);
    holds = answer.number == number && answer.place == place && answer.count == count && answer.bytes == bytes;
    holds = holds && (given == NULL || memcmp(given, r->bytes, r->length) == 0);
    holds = holds && is_written(output, room, table, bytes);
    bandrolt_table_answer check = bandrolt_check_table(output, holds ? bytes : 0);
    holds = holds && check.number == 0 && check.place == 0 && check.count == count;
    free(given);
    free(output);

    if (holds) {
        passed++;
    } else {
        failed++;
        printf("FAILED: %s: number %" PRIu64 ", place %" PRIu64 ", count %" PRIu64 ", bytes %" PRIu64 "\n", what,
               answer.number, answer.place, answer.count, answer.bytes);
    }
}

static void flatten_own_recipes(void)
{
    static const recipe empty;
    static recipe only_top, sample_r, deletion;
    uint8_t table[2 * RECORD];

    put_model(&only_top, "top");
    put_sample_r(&sample_r);
    put_model(&deletion, "top");
    put_element(&deletion, "c", 1, "", "");
    put_submodel(&deletion, "a", "cell");
    put_deletion(&deletion, "a", 0, "v");
    put_cell(&deletion);
    put(table, 0, 1, "c", "", "");
    put(table, 1, 2, "a__s", "", "c");

    expect_flat("nothing, into nothing", &empty, 0, 1, 0, NULL, 0);
    expect_flat("only model top, into nothing", &only_top, 0, 0, 0, NULL, 0);
    expect_flat("sample R, into 410 bytes", &sample_r, 2 * RECORD, 0, 0, table, 2);
    expect_flat("sample R, into 409 bytes", &sample_r, 2 * RECORD - 1, 13, 0, NULL, 0);
    expect_flat("sample R, into 1,000 bytes", &sample_r, 1000, 0, 0, table, 2);
    expect_flat("sample R with a deletion", &deletion, 1000, 12, 153, NULL, 0);
}

/* The length of a table's longest name. */
static uint64_t longest_name(const uint8_t *table, uint64_t count)
{
    uint64_t longest = 0;
    for (uint64_t i = 0; i < count; i++) {
        const uint8_t *name = table + i * RECORD + 1, *zero = memchr(name, 0, FIELD);
        uint64_t length = zero != NULL ? (uint64_t)(zero - name) : FIELD;
        longest = length > longest ? length : longest;
    }
    return longest;
}

/* Asks for the size, and flattens into just so many bytes: the table is closed, and has the counts and the longest name that
   were said. */
static void expect_size(const char *what, const recipe *r, bandrolt_size expected)
{
    uint8_t *given = lend(r->bytes, r->length);
    int holds;

    bandrolt_size size = bandrolt_table_size(given, r->length);
    uint8_t *table = lend_output(size.bytes);
    bandrolt_answer answer = bandrolt_flatten(given, r->length, table, size.bytes);
    bandrolt_table_answer check = bandrolt_check_table(table, answer.bytes);
    holds = memcmp(&size, &expected, sizeof size) == 0;
    holds = holds && (given == NULL || memcmp(given, r->bytes, r->length) == 0);
    holds = holds && answer.number == size.number && answer.place == size.place;
    holds = holds && answer.count == size.count && answer.bytes == size.bytes;
    holds = holds && check.number == 0 && check.count == size.count;
    holds = holds && longest_name(table, answer.count) == size.longest;
    free(given);
    free(table);

    if (holds) {
        passed++;
    } else {
        failed++;
        printf("FAILED: size of %s: number %" PRIu64 ", place %" PRIu64 ", count %" PRIu64 ", bytes %" PRIu64
               ", longest %" PRIu64 "\n",
               what, size.number, size.place, size.count, size.bytes, size.longest);
    }
}

static void ask_sizes(void)
{
    static const recipe empty;
    static recipe only_top, sample_r, deletion, gone, levels;

    put_model(&only_top, "top");
    put_sample_r(&sample_r);
    put_model(&deletion, "top");
    put_element(&deletion, "c", 1, "", "");
    put_submodel(&deletion, "a", "cell");
    put_deletion(&deletion, "a", 0, "v");
    put_cell(&deletion);
    /* The longest name is that of an element that is gone. */
    put_model(&gone, "top");
    put_submodel(&gone, "a", "cell");
    put_deletion(&gone, "a", 0, "long_name");
    put_model(&gone, "cell");
    put_element(&gone, "k", 3, "", "");
    put_element(&gone, "long_name", 3, "", "");
    /* Four prefixes of 14 bytes, and a name of 12. */
    put_model(&levels, "m0");
    for (int i = 1; i <= 4; i++) {
        const char model[] = { 'm', (char)('0' + i), 0 };
        put_submodel(&levels, "submodel_one", model);
        put_model(&levels, model);
    }
    put_element(&levels, "twelve_bytes", 3, "", "");

    expect_size("nothing", &empty, (bandrolt_size){ .number = 1 });
    expect_size("only model top", &only_top, (bandrolt_size){ 0 });
    expect_size("sample R", &sample_r, (bandrolt_size){ 0, 0, 2, 2 * RECORD, 4 });
    expect_size("sample R with a deletion", &deletion, (bandrolt_size){ 12, 153, 0, 0, 0 });
    expect_size("a recipe whose longest name is gone", &gone, (bandrolt_size){ 0, 0, 1, RECORD, 4 });
    expect_size("a name of 68 bytes", &levels, (bandrolt_size){ 0, 0, 1, RECORD, FIELD });
}

/* Flattens with factors; the outputs must be `table` and `companion` where the recipe is accepted. */
static void expect_factors(const char *what, const recipe *r, size_t room, size_t companion_room,
                           bandrolt_factors_answer expected, const uint8_t *table, const uint8_t *companion)
{
    uint8_t *given = lend(r->bytes, r->length);
    uint8_t *output = lend_output(room), *entries = lend_output(companion_room);
    int holds;

    bandrolt_factors_answer answer =
        bandrolt_flatten_with_factors(given, r->length, output, room, entries, companion_room);
    holds = memcmp(&answer, &expected, sizeof answer) == 0;
    holds = holds && (given == NULL || memcmp(given, r->bytes, r->length) == 0);
    holds = holds && is_written(output, room, table, expected.bytes);
    holds = holds && is_written(entries, companion_room, companion, expected.entries * ENTRY);
    free(given);
    free(output);
    free(entries);

    if (holds) {
        passed++;
    } else {
        failed++;
        printf("FAILED: %s: number %" PRIu64 ", place %" PRIu64 ", count %" PRIu64 ", bytes %" PRIu64
               ", entries %" PRIu64 "\n",
               what, answer.number, answer.place, answer.count, answer.bytes, answer.entries);
    }
}

static void flatten_with_factors(void)
{
    static const recipe empty;
    static recipe only_top, one_level, twice, deleted;
    const bandrolt_factors_answer accepted = { 0, 0, 2, 2 * RECORD, 1 }, too_short = { .number = 13 };
    uint8_t table[2 * RECORD], companion[ENTRY] = { 8 };

    put_model(&only_top, "top");
    /* The time factor of a is f; its reaction has an entry. */
    put_model(&one_level, "top");
    put_element(&one_level, "f", 3, "", "");
    put_submodel(&one_level, "a", "cell");
    put_factors(&one_level, "a", "f", "");
    twice = one_level;
    deleted = one_level;
    put_model(&one_level, "cell");
    put_element(&one_level, "r", 4, "", "");
    put(table, 0, 3, "f", "", "");
    put(table, 1, 4, "a__r", "", "");
    memcpy(companion + 1, "a__r", 4);
    memcpy(companion + 1 + FIELD, "f", 1);
    put_factors(&twice, "a", "", "f");
    put_model(&twice, "cell");
    /* An extent factor of b that is deleted in a. */
    put_deletion(&deleted, "a", 0, "g");
    put_model(&deleted, "cell");
    put_element(&deleted, "g", 3, "", "");
    put_submodel(&deleted, "b", "low");
    put_factors(&deleted, "b", "", "g");
    put_model(&deleted, "low");

    expect_factors("nothing, into nothing", &empty, 0, 0, (bandrolt_factors_answer){ .number = 1 }, NULL, NULL);
    expect_factors("only model top, into nothing", &only_top, 0, 0, (bandrolt_factors_answer){ 0 }, NULL, NULL);
    expect_factors("a factor, into 410 and 613 bytes", &one_level, 2 * RECORD, ENTRY, accepted, table, companion);
    expect_factors("a factor, into longer outputs", &one_level, 1000, 1000, accepted, table, companion);
    expect_factors("a factor, into 409 and 613 bytes", &one_level, 2 * RECORD - 1, ENTRY, too_short, NULL, NULL);
    expect_factors("a factor, into 410 and 612 bytes", &one_level, 2 * RECORD, ENTRY - 1, too_short, NULL, NULL);
    expect_factors("a factor, without a companion", &one_level, 2 * RECORD, 0, too_short, NULL, NULL);
    expect_factors("factors given twice", &twice, 0, 0, (bandrolt_factors_answer){ 19, 113, 0, 0, 0 }, NULL, NULL);
    expect_factors("a deleted factor", &deleted, 0, 0, (bandrolt_factors_answer){ 20, 215, 0, 0, 0 }, NULL, NULL);
    expect_flat("a factor, without the companion", &one_level, 2 * RECORD, 0, 0, table, 2);
    expect_flat("factors given twice, without the companion", &twice, 0, 19, 113, NULL, 0);
    expect_flat("a deleted factor, without the companion", &deleted, 0, 20, 215, NULL, 0);
}

/* Walks back a text that is padded to `name_length` bytes, 69 at most. */
static void expect_origin(const char *what, const recipe *r, const char *text, size_t name_length,
                          bandrolt_origin expected)
{
    uint8_t *given = lend(r->bytes, r->length), *name;
    uint8_t before[FIELD + 1] = { 0 };
    int holds;

    memcpy(before, text, strlen(text));
    name = lend(before, name_length);
    bandrolt_origin origin = bandrolt_walk_back(given, r->length, name, name_length);
    holds = memcmp(&origin, &expected, sizeof origin) == 0;
    holds = holds && (given == NULL || memcmp(given, r->bytes, r->length) == 0);
    holds = holds && (name == NULL || memcmp(name, before, name_length) == 0);
    free(given);
    free(name);

    if (holds) {
        passed++;
    } else {
        failed++;
        printf("FAILED: %s: number %" PRIu64 ", place %" PRIu64 ", depth %" PRIu64 ", element %" PRIu64 "\n", what,
               origin.number, origin.place, origin.depth, origin.element);
    }
}

static void walk_back_in_own_recipes(void)
{
    static const recipe empty;
    static recipe sample_r;
    const bandrolt_origin no_survivor = { .number = 18 };

    put_sample_r(&sample_r);
    expect_origin("a__s", &sample_r, "a__s", FIELD, (bandrolt_origin){ 0, 0, 1, { 51, 0, 0, 0 }, 165 });
    expect_origin("c", &sample_r, "c", FIELD, (bandrolt_origin){ 0, 0, 0, { 0, 0, 0, 0 }, 13 });
    expect_origin("a__v, which is gone", &sample_r, "a__v", FIELD, no_survivor);
    expect_origin("a___s", &sample_r, "a___s", FIELD, no_survivor);
    expect_origin("67 bytes", &sample_r, "a__s", FIELD - 1, no_survivor);
    expect_origin("69 bytes", &sample_r, "a__s", FIELD + 1, no_survivor);
    expect_origin("a blank", &sample_r, "", FIELD, no_survivor);
    expect_origin("null for the name", &sample_r, "", 0, no_survivor);
    expect_origin("null for both", &empty, "", 0, (bandrolt_origin){ .number = 1 });
}

/* Reads a whole file into a block of its length, or null for an empty one. */
static uint8_t *read_file(const char *path, size_t *length)
{
    FILE *file = fopen(path, "rb");
    long end = -1;
    if (file != NULL && fseek(file, 0, SEEK_END) == 0) {
        end = ftell(file);
    }
    if (end < 0) {
        perror(path);
        exit(2);
    }
    rewind(file);
    *length = (size_t)end;
    uint8_t *bytes = *length > 0 ? allocate(*length) : NULL;
    if (bytes != NULL && fread(bytes, 1, *length, file) != *length) {
        fprintf(stderr, "%s: cut short\n", path);
        exit(2);
    }
    fclose(file);
    return bytes;
}

/* The status of a refusal. */
static int refused(uint64_t number, uint64_t place)
{
    printf("refused %" PRIu64 " at %" PRIu64 "\n", number, place);
    return 1;
}

/* Says what the check answers; the status comes back. */
static int report(bandrolt_table_answer answer)
{
    if (answer.number != 0) {
        return refused(answer.number, answer.place);
    }
    printf("closed, %" PRIu64 " records\n", answer.count);
    return 0;
}

static int check_table(const char *path)
{
    size_t length;
    uint8_t *table = read_file(path, &length);
    bandrolt_table_answer answer = bandrolt_check_table(table, length);
    free(table);
    return report(answer);
}

static int ask_size(const char *path)
{
    size_t length;
    uint8_t *bytes = read_file(path, &length);
    bandrolt_size size = bandrolt_table_size(bytes, length);
    free(bytes);
    if (size.number != 0) {
        return refused(size.number, size.place);
    }
    printf("%" PRIu64 " records, %" PRIu64 " bytes, longest name %" PRIu64 "\n", size.count, size.bytes, size.longest);
    return 0;
}

static int load_recipe(const char *path)
{
    size_t length;
    uint8_t *bytes = read_file(path, &length);
    bandrolt_size size = bandrolt_table_size(bytes, length);
    uint8_t *table = lend_output(size.bytes);
    bandrolt_answer answer = bandrolt_flatten(bytes, length, table, size.bytes);
    bandrolt_table_answer said = { answer.number, answer.place, 0 };
    if (answer.number == 0) {
        said = bandrolt_check_table(table, answer.bytes);
    }
    free(bytes);
    free(table);
    return report(said);
}

int main(int argc, char **argv)
{
    if (argc == 3 && strcmp(argv[1], "size") == 0) {
        return ask_size(argv[2]);
    }
    if (argc == 3 && strcmp(argv[1], "recipe") == 0) {
        return load_recipe(argv[2]);
    }
    if (argc == 3 && strcmp(argv[1], "table") == 0) {
        return check_table(argv[2]);
    }
    if (argc > 1) {
        fputs("usage: solver | solver size FILE | solver recipe FILE | solver table FILE\n", stderr);
        return 2;
    }
    check_own_tables();
    flatten_own_recipes();
    ask_sizes();
    flatten_with_factors();
    walk_back_in_own_recipes();
    printf("%d passed, %d failed\n", passed, failed);
    return failed > 0;
}
