/* Bandrolt's calls, for C99 and C++; link with libcomposer.a, libflat_table.a, liborigins.a, libfactors.a and
   libsizes.a. They say how large a recipe's flat table will be, flatten the recipe, by itself or with its time and
   extent factors, tell whether a flat table is closed, and walk back from a flat name to the recipe's records, as
   documents 01 and 02 say it. */

#ifndef BANDROLT_H
#define BANDROLT_H

#include <stddef.h>
#include <stdint.h>

#ifdef __cplusplus
extern "C" {
#endif

typedef struct bandrolt_table_answer {
    uint64_t number; /* 0 for a closed table, or else 14 to 17 */
    uint64_t place;  /* offset of the record at fault, or 0 */
    uint64_t count;  /* number of records of a closed table, or else 0 */
} bandrolt_table_answer;

/* Checks the `length` bytes at `table`.

   A table is a row of records of 205 bytes: the class, then the name, parent and
   reference, each in 68 bytes. A name is 1 to 68 ASCII letters, digits and
   underscores, the first no digit, then zeros; a blank field is all zeros.

     class                 parent     reference
     1 compartment         blank      blank
     2 species             blank      class 1
     3 parameter           blank      blank
     4 reaction            blank      blank or class 1
     5 species reference   class 4    class 2
     6 rate rule           blank      class 1, 2 or 3
     7 local parameter     class 4    blank

   A closed table, such as an empty one, gives number 0, place 0 and its number of
   records. Any other gives count 0 and the lowest of these numbers that applies,
   with its lowest place:

     14, at 0: the length is no multiple of 205, or over 209,920 (1,024 records);
     15, at a record: its class is not 1 to 7, its name is no name, or its parent
         or reference is neither a name nor blank;
     16, at a record: an earlier one has the same name;
     17, at a record: its parent is against the classes above or no earlier record,
         or its reference is against them or no record of the table.

   The call reads those bytes alone, writes none, ends on all input and keeps no
   state, so several threads may call it at once. It allocates nothing.
   `table` may be null only with length 0. It needs less than
   BANDROLT_CHECK_TABLE_STACK bytes of stack. */
#define BANDROLT_CHECK_TABLE_STACK 16384

bandrolt_table_answer bandrolt_check_table(const uint8_t *table, size_t length);

typedef struct bandrolt_answer {
    uint64_t number; /* 0 for an accepted recipe, or else 1 to 13, 19 or 20 */
    uint64_t place;  /* offset of the record at fault, or 0 */
    uint64_t count;  /* number of flat records, or 0 for a refusal */
    uint64_t bytes;  /* what they take of the table: 205 for each */
} bandrolt_answer;

/* Flattens the `length` bytes at `recipe`, a recipe with names of 12 bytes, into the `room` bytes at `table`.

   An accepted recipe gives number 0, place 0, the number of flat records and their bytes; the records stand at the
   beginning of `table`, in the order of the tree, and bandrolt_check_table finds them closed, with the same count.
   The bytes after them are unchanged. 209,920 bytes of room suffice for every recipe.

   Any other recipe gives both counts 0, an unchanged `table`, and the first of these numbers that applies, in this
   order, with its lowest place:

     1, at 0: the recipe is empty, or over 16,384 bytes;
     2, at a record: its kind is unknown, its body is cut short, or it is the first and no model;
     3, at a record: a field is no name, or blank where no blank is allowed; a way or class byte has no meaning;
        a submodel's own name ends with an underscore;
     4, at a record: it repeats a name, or is a definition's second replaced-by with one owner;
     5, at a record: what it names is not declared, or its parent is against the class table;
    19, at a kind 8 record: its submodel is no submodel of the definition, or was given factors by an earlier one,
        in any definition;
     6, at a model: its definition reaches itself;
     7, at 0: there are over 64 instances with main, or over 1,024 elements in the tree, or it is over 4 deep;
     8, at a port or mark: its target doesn't exist, in any definition;
     9, at a record: it conflicts with an earlier one, somewhere in the tree;
    10, at a mark: its owner and its target have different classes, in any definition;
    11, at a replaced-by: its target is gone;
    12, at an element: it survives, and its reference is against its class, names no element of its definition,
        or leads to one that is gone or of a wrong class;
    20, at a kind 8 record: a factor names no element of the definition, or leads to one that is gone or no parameter,
        somewhere in the tree;
    13, at 0: `room` is less than 205 for each flat record.

   The call reads the recipe alone, writes within `table` alone, ends on all input, keeps no state and allocates
   nothing. The two must not overlap; each may be null only with length 0. It needs less than
   BANDROLT_FLATTEN_STACK bytes of stack. */
#define BANDROLT_FLATTEN_STACK 131072

bandrolt_answer bandrolt_flatten(const uint8_t *recipe, size_t length, uint8_t *table, size_t room);

typedef struct bandrolt_size {
    uint64_t number;  /* 0, or else as bandrolt_flatten without 13 */
    uint64_t place;   /* offset of the record at fault, or 0 */
    uint64_t count;   /* flat records; the three are 0 on a refusal */
    uint64_t bytes;   /* what they take: lend so many */
    uint64_t longest; /* bytes of the longest flat name, 0 to 68 */
} bandrolt_size;

/* Says how large the flat table of the `length` bytes at `recipe` will be, without an output.

   An accepted recipe gives number 0, place 0, the number of its flat records, their bytes, 205 for each, and the length
   of the longest flat name among them, without the zeros behind it; all three are 0 if nothing survives. Elements that
   are gone count neither as records nor for the longest name.

   Any other recipe gives the three 0, and the number and place of bandrolt_flatten, whatever its room: 1 to 12, 19 or
   20. 13 doesn't apply.

   Of an accepted recipe, flattening into exactly so many bytes gives 0, 0 and the same count and bytes, and into one byte
   less, if there are any, 13. No name of the table is longer than `longest`, and one, if there are any, is so long. The
   two calls in a row, without a byte to spare:

     bandrolt_size size = bandrolt_table_size(recipe, length);
     if (size.number != 0) return refused(size.number, size.place);
     uint8_t *table = malloc(size.bytes);
     if (table == NULL && size.bytes > 0) return out_of_memory();
     bandrolt_flatten(recipe, length, table, size.bytes);
     load(table, size.count);

   The call reads the recipe alone, writes nothing, ends on all input, keeps no state and allocates nothing. `recipe` may
   be null only with length 0. It needs less than BANDROLT_TABLE_SIZE_STACK bytes of stack. */
#define BANDROLT_TABLE_SIZE_STACK 131072

bandrolt_size bandrolt_table_size(const uint8_t *recipe, size_t length);

typedef struct bandrolt_factors_answer {
    uint64_t number, place, count, bytes; /* as bandrolt_flatten */
    uint64_t entries;                     /* companion entries, 613 bytes each; 0 on a refusal */
} bandrolt_factors_answer;

/* Flattens the `length` bytes at `recipe` into the `room` bytes at `table`, and writes the time and extent factors of its
   reactions and rate rules into the `companion_room` bytes at `companion`.

   An accepted recipe gives what bandrolt_flatten gives, the same table, and the number of entries. These stand at the
   beginning of `companion`: one for each flat record of class 4 or 6, in the order of the table. An entry is 613 bytes:
   the byte 8, then nine fields of 68 bytes, zero padded: the record's name, four time fields and four extent fields.
   Field i of four is for the submodel at depth i on the way from main to the record, and has the flat name of the
   parameter that its factor leads to; it is blank if there is no such submodel, or if that has no such factor. So each
   filled field is the name of a flat record of class 3. The bytes after the records and after the entries are unchanged.
   627,712 bytes of room suffice for every companion.

   Any other recipe gives count, bytes and entries 0, both outputs unchanged, and the number and place of
   bandrolt_flatten, where 13, at 0, also says that `companion_room` is less than 613 for each entry.

   The call reads the recipe alone, writes within `table` and `companion` alone, ends on all input, keeps no state and
   allocates nothing. The three must not overlap; each may be null only with length 0. It needs less than
   BANDROLT_FLATTEN_WITH_FACTORS_STACK bytes of stack. */
#define BANDROLT_FLATTEN_WITH_FACTORS_STACK 131072

bandrolt_factors_answer bandrolt_flatten_with_factors(const uint8_t *recipe, size_t length, uint8_t *table, size_t room,
                                                      uint8_t *companion, size_t companion_room);

typedef struct bandrolt_origin {
    uint64_t number;      /* 0, or else as bandrolt_flatten without 13, or 18 */
    uint64_t place;       /* offset of the record at fault, or 0 */
    uint64_t depth;       /* how many of the submodels are used, 0 to 4 */
    uint64_t submodel[4]; /* offsets of the submodel records, from main downward; unused ones 0 */
    uint64_t element;     /* offset of the element record */
} bandrolt_origin;

/* Walks back from the `name_length` bytes at `name`, a flat name as in a flat record, zero padded to 68 bytes, to the
   records of the `length` bytes at `recipe` that it comes from.

   The name of a flat record of this recipe gives number 0, place 0 and its element's origin: how many submodels it lies
   in, the offsets of their records' kind bytes from main downward, and that of the element's record. Every flat record's
   name has one, each another, and flattening names that element so again. Unused offsets are 0.

   Any other recipe or name gives depth and all offsets 0, and the first of these numbers that applies, with its lowest
   place:

     1 to 12, 19, 20: the recipe is refused, whatever the name; order and places are those of bandrolt_flatten. 13 doesn't
        apply;
     18, at 0: the recipe is accepted, and the name is no flat record's: `name_length` is not 68, or the 68 bytes, the
        zeros behind the name among them, are in no flat record as its name. The name of an element that is gone is
        none, nor is a blank. A name is never cut or padded to fit.

   The call reads the recipe and the name alone, writes nothing, ends on all input, keeps no state and allocates
   nothing. Each of the two may be null only with length 0. It needs less than BANDROLT_WALK_BACK_STACK bytes of
   stack. */
#define BANDROLT_WALK_BACK_STACK 131072

bandrolt_origin bandrolt_walk_back(const uint8_t *recipe, size_t length, const uint8_t *name, size_t name_length);

#ifdef __cplusplus
}
#endif

#endif
