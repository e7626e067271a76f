/* The tables that vaknuhol-lines writes, and how they grow.

   The output is "VAKLINES", a word of 8 bytes that is the form's version, and then each table in the order of `enum table`: how many bytes
   it has (8 bytes), these bytes, and zeros up to a multiple of 8. All numbers are little endian. Texts and files are numbered by
   their place in FILE_NAME (from 0) and in TEXT (the offset of their first byte); an instance by its place, from 1 on, 0 is none.  */
#ifndef TABLES_H
#define TABLES_H
#include <stdbool.h>
#include <stdint.h>
#include <stdio.h>

enum table {
    TEXT,               /* names, each ended by a zero byte */
    FILE_NAME,          /* u32: where in TEXT the name of each file begins */
    PIECE_LOW,          /* u64: runs of code that belong to one line, ascending: first address */
    PIECE_HIGH,         /* u64: the address behind the last byte */
    PIECE_FILE,         /* u32 */
    PIECE_LINE,         /* u32 */
    PIECE_COLUMN,       /* u16: 0 where it isn't told, 65,535 where it is more */
    PIECE_BEGINS,       /* u8: whether a statement begins there (is_stmt) */
    POINT_AT,           /* u64: rows of no length, which are of lines whose code was merged or moved away, ascending */
    POINT_FILE,         /* u32 */
    POINT_LINE,         /* u32 */
    POINT_COLUMN,       /* u16 */
    POINT_BEGINS,       /* u8 */
    POINT_VIEW,         /* u32: how many rows of its sequence stand before it at the same address (a view number of GNU as) */
    INSTANCE_PARENT,    /* u32: functions with code, and inlined calls, which may have none left: the instance around each */
    INSTANCE_NAME,      /* u32: the linkage name, or the name */
    INSTANCE_FILE,      /* u32: where it is declared */
    INSTANCE_LINE,      /* u32 */
    INSTANCE_CALL_FILE, /* u32: of an inlined one, where it is called; else 0 0 */
    INSTANCE_CALL_LINE, /* u32 */
    INSTANCE_ENTRY,     /* u64: the address of entry, or 0 where that isn't told */
    INSTANCE_VIEW,      /* u32: the view there, from which on the rows are its own */
    INSTANCE_KIND,      /* u8: INLINED, ARTIFICIAL, RETURNS_VALUE */
    INSTANCE_RANGES,    /* u32: how many ranges it has; none where a call has an entry alone, since its code was merged with other's */
    RANGE_LOW,          /* u64: the ranges of all instances, in their order */
    RANGE_HIGH,         /* u64 */
    TABLES
};

enum { INLINED = 1, ARTIFICIAL = 2, RETURNS_VALUE = 4 };

/* Adds the `size` lowest bytes of a number to a table. */
void add(enum table table, uint64_t number, int size);

/* Adds bytes to a table. */
void add_bytes(enum table table, const void *bytes, size_t size);

/* How many bytes a table has. */
size_t length_of(enum table table);

/* Where a table's bytes are; they may move as it grows. */
const char *bytes_of(enum table table);

/* Writes all tables; false where that fails. */
bool write_tables(FILE *out);
#endif
