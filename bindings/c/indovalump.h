/* Sheets of text with embeds and attributes. Link crates/ffi/out/libffi.a, which `rt lib` in crates/ffi writes.
 *
 * A sheet lies in memory that its owner lends to each call: a head of 3 numbers, INDOVALUMP_ITEMS words and INDOVALUMP_UNITS
 * UTF-16 units. A slice is a pointer and a length in elements. What is lent as non-const must not overlap anything else that is lent.
 * Each call answers a refusal number, 0 for none. A refused call changes no slice and no head; the single numbers through which
 * it answers are 0 then. Keys are 0 to 15; `mask` has a bit for each key of a set, `values` a byte for each key, 0 being null. */
#ifndef INDOVALUMP_H
#define INDOVALUMP_H
#include <stdbool.h>
#include <stddef.h>
#include <stdint.h>
#ifdef __cplusplus
extern "C" {
#endif

enum { INDOVALUMP_ITEMS = 2048, INDOVALUMP_UNITS = 16384, INDOVALUMP_TABLE = 9214 };

/* Refusal numbers. */
enum {
    INDOVALUMP_SHORT = 1,  /* a removal asks for more units than stand right of its place */
    INDOVALUMP_PAIR = 2,   /* an index, or the end of a range, falls inside a surrogate pair */
    INDOVALUMP_BAD_UNITS = 3, /* handed text has an unpaired surrogate */
    INDOVALUMP_ROOM = 4,   /* the sheet would pass its limits */
    INDOVALUMP_FULL = 5,   /* a new name or value, and no number left */
    INDOVALUMP_LONG = 6,   /* a name of 0 or over 32 bytes, a string over 32 */
    INDOVALUMP_MANY = 7,   /* over 256 operations, one whose text was not lent, or numbers that are no operation */
    INDOVALUMP_OUT = 8,    /* the answer does not fit, or a delta's scratch is too short */
    INDOVALUMP_BROKEN = 9  /* the sheet or table is not sound */
};

/* An operation is 8 numbers: its kind; a text's start in the units lent beside it, an embed's number, or how many units to delete or
 * retain; a text's length; the key mask; and the 16 values, four to a number, the lowest key in the lowest byte. */
enum { INDOVALUMP_OP_TEXT = 1, INDOVALUMP_OP_EMBED = 2, INDOVALUMP_OP_DELETE = 3, INDOVALUMP_OP_RETAIN = 4 };

/* ---- a sheet */
void indovalump_fresh(uint32_t head[3]);
bool indovalump_sound(const uint32_t head[3], const uint64_t *items, size_t items_len, const uint16_t *units, size_t units_len);
uint32_t indovalump_begin(uint32_t head[3], uint64_t *items, size_t items_len, const uint16_t *units, size_t units_len);
uint32_t indovalump_insert(uint32_t head[3], uint64_t *items, size_t items_len, uint16_t *units, size_t units_len,
                           uint32_t index, const uint16_t *text, size_t text_len);
uint32_t indovalump_insert_with_attributes(uint32_t head[3], uint64_t *items, size_t items_len, uint16_t *units, size_t units_len,
                                           uint32_t index, const uint16_t *text, size_t text_len, uint16_t mask, const uint8_t values[16]);
uint32_t indovalump_insert_embed(uint32_t head[3], uint64_t *items, size_t items_len, const uint16_t *units, size_t units_len,
                                 uint32_t index, uint32_t number);
uint32_t indovalump_insert_embed_with_attributes(uint32_t head[3], uint64_t *items, size_t items_len, const uint16_t *units, size_t units_len,
                                                 uint32_t index, uint32_t number, uint16_t mask, const uint8_t values[16]);
uint32_t indovalump_format(uint32_t head[3], uint64_t *items, size_t items_len, const uint16_t *units, size_t units_len,
                           uint32_t index, uint32_t len, uint16_t mask, const uint8_t values[16]);
uint32_t indovalump_remove_range(uint32_t head[3], uint64_t *items, size_t items_len, const uint16_t *units, size_t units_len,
                                 uint32_t index, uint32_t len);
/* The scratch has the sheet's sizes; it is only measured. */
uint32_t indovalump_apply_delta(uint32_t head[3], uint64_t *items, size_t items_len, uint16_t *units, size_t units_len,
                                const uint32_t *ops, size_t ops_len, const uint16_t *text, size_t text_len,
                                const uint64_t *scratch_items, size_t scratch_items_len, const uint16_t *scratch_units, size_t scratch_units_len);
uint32_t indovalump_len(const uint32_t head[3], const uint64_t *items, size_t items_len, const uint16_t *units, size_t units_len, uint32_t *len);
/* The units seen in a range, an embed as 0. */
uint32_t indovalump_text(const uint32_t head[3], const uint64_t *items, size_t items_len, const uint16_t *units, size_t units_len,
                         uint32_t index, uint32_t len, uint16_t *out, size_t out_len, size_t *count);
/* Runs as operations of kind text or embed; a text's start and length count the units that are seen. 8 numbers a run hold them. */
uint32_t indovalump_count_runs(const uint32_t head[3], const uint64_t *items, size_t items_len, const uint16_t *units, size_t units_len,
                               bool joined, size_t *count);
uint32_t indovalump_runs(const uint32_t head[3], const uint64_t *items, size_t items_len, const uint16_t *units, size_t units_len,
                         bool joined, uint32_t *ops, size_t ops_len, size_t *count);
/* Run n from 0; 8 times 0 where there is none. */
uint32_t indovalump_run_at(const uint32_t head[3], const uint64_t *items, size_t items_len, const uint16_t *units, size_t units_len,
                           bool joined, uint32_t n, uint32_t run[8]);
/* What the running transaction changed; counts are how many operations and units were written. */
uint32_t indovalump_event(const uint32_t head[3], const uint64_t *items, size_t items_len, const uint16_t *units, size_t units_len,
                          uint32_t *ops, size_t ops_len, uint16_t *texts, size_t texts_len, uint32_t counts[2]);

/* ---- the table: a head of 2 numbers and INDOVALUMP_TABLE bytes */
void indovalump_table_fresh(uint32_t head[2]);
bool indovalump_table_sound(const uint32_t head[2], const uint8_t *table, size_t table_len);
uint32_t indovalump_ask_name(uint32_t head[2], uint8_t *table, size_t table_len, const uint8_t *name, size_t name_len, uint32_t *number);
uint32_t indovalump_ask_bool(uint32_t head[2], uint8_t *table, size_t table_len, bool value, uint32_t *number);
uint32_t indovalump_ask_int(uint32_t head[2], uint8_t *table, size_t table_len, int64_t value, uint32_t *number);
uint32_t indovalump_ask_string(uint32_t head[2], uint8_t *table, size_t table_len, const uint8_t *value, size_t value_len, uint32_t *number);
uint32_t indovalump_name(const uint32_t head[2], const uint8_t *table, size_t table_len, uint32_t n, uint8_t *out, size_t out_len, size_t *count);
uint32_t indovalump_string(const uint32_t head[2], const uint8_t *table, size_t table_len, uint32_t v, uint8_t *out, size_t out_len, size_t *count);
/* Answers the kind: 0 none, 1 bool, 2 integer, 3 string. */
uint32_t indovalump_value(const uint32_t head[2], const uint8_t *table, size_t table_len, uint32_t v, int64_t *number);

#ifdef __cplusplus
}
#endif
#endif
