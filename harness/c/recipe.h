/* Recipes that are built record by record, as a caller in C would; a blank name is "". */

#ifndef RECIPE_H
#define RECIPE_H

#include <stddef.h>
#include <stdint.h>
#include <string.h>

enum { NAME = 12, MAX_RECIPE = 16384 };

typedef struct recipe {
    size_t length;
    uint8_t bytes[MAX_RECIPE];
} recipe;

static inline void put_byte(recipe *r, uint8_t byte) { r->bytes[r->length++] = byte; }

static inline void put_name(recipe *r, const char *name)
{
    size_t length = strlen(name);
    memset(r->bytes + r->length, 0, NAME);
    memcpy(r->bytes + r->length, name, length < NAME ? length : NAME);
    r->length += NAME;
}

static inline void put_model(recipe *r, const char *name)
{
    put_byte(r, 1);
    put_name(r, name);
}

static inline void put_element(recipe *r, const char *name, uint8_t class_byte, const char *parent,
                               const char *reference)
{
    put_byte(r, 2);
    put_name(r, name);
    put_byte(r, class_byte);
    put_name(r, parent);
    put_name(r, reference);
}

static inline void put_submodel(recipe *r, const char *name, const char *model)
{
    put_byte(r, 4);
    put_name(r, name);
    put_name(r, model);
}

/* What a port or mark ends with: its target by element name (way 0) or by port name (way 1). */
static inline void put_target(recipe *r, const char *submodel, uint8_t way, const char *target)
{
    put_name(r, submodel);
    put_byte(r, way);
    put_name(r, target);
}

static inline void put_port(recipe *r, const char *name, const char *submodel, uint8_t way, const char *target)
{
    put_byte(r, 3);
    put_name(r, name);
    put_target(r, submodel, way, target);
}

static inline void put_deletion(recipe *r, const char *submodel, uint8_t way, const char *target)
{
    put_byte(r, 5);
    put_target(r, submodel, way, target);
}

static inline void put_replacement(recipe *r, const char *owner, const char *submodel, uint8_t way,
                                   const char *target)
{
    put_byte(r, 6);
    put_name(r, owner);
    put_target(r, submodel, way, target);
}

static inline void put_factors(recipe *r, const char *submodel, const char *time, const char *extent)
{
    put_byte(r, 8);
    put_name(r, submodel);
    put_name(r, time);
    put_name(r, extent);
}

/* The cell of document 01's sample R. */
static inline void put_cell(recipe *r)
{
    put_model(r, "cell");
    put_element(r, "v", 1, "", "");
    put_element(r, "s", 2, "", "v");
}

/* Document 01's sample R. */
static inline void put_sample_r(recipe *r)
{
    put_model(r, "top");
    put_element(r, "c", 1, "", "");
    put_submodel(r, "a", "cell");
    put_replacement(r, "c", "a", 0, "v");
    put_cell(r);
}

#endif
