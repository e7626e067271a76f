/* Rows of the line tables: those that have code, as pieces, and those that have none, as points. */
#include "rows.h"
#include "names.h"
#include "refusing.h"
#include "tables.h"
#include <dwarf.h>
#include <stdbool.h>
#include <stdlib.h>

struct row {
    uint64_t low, high; /* equal where the row has no code */
    uint32_t file, line;
    uint32_t number; /* in the order of the tables */
    uint32_t unit, view;
    uint16_t column;
    bool begins;
};

static struct row *rows;
static size_t count, room;

static void keep(struct row row) {
    rows = room_for_one(rows, count, &room, sizeof *rows);
    row.number = (uint32_t)count;
    rows[count++] = row;
}

/* What a row says by itself: its end is that of the row behind it. False where it ends a sequence. */
static bool row_of(Dwarf_Line *line, const char *folder, struct row *row) {
    static const char *last_name, *last_folder;
    static uint32_t last;
    int number = 0, column = 0;
    bool ends = true;
    Dwarf_Addr at = 0;
    row->begins = false;
    if (dwarf_lineaddr(line, &at) || dwarf_lineno(line, &number) || dwarf_lineendsequence(line, &ends) || dwarf_linebeginstatement(line, &row->begins)
        || dwarf_linecol(line, &column))
        return false;
    row->low = at;
    row->line = number > 0 ? (uint32_t)number : 0;
    row->column = (uint16_t)(column < 0 ? 0 : column > UINT16_MAX ? UINT16_MAX : column);
    if (ends)
        return false;
    const char *name = dwarf_linesrc(line, NULL, NULL);
    if (!name)
        name = "";
    if (name != last_name || folder != last_folder) {
        last = file_number(folder, name);
        last_name = name;
        last_folder = folder;
    }
    row->file = last;
    return true;
}

bool read_rows(Dwarf_Die *unit, const char *folder, Dwarf_Addr lowest) {
    Dwarf_Lines *lines;
    size_t lines_count;
    if (!dwarf_hasattr(unit, DW_AT_stmt_list))
        return true;
    if (dwarf_getsrclines(unit, &lines, &lines_count))
        return false;
    static uint32_t number; /* of the unit */
    struct row row = {0}, following;
    bool is_row = false;
    number++;
    for (size_t i = 0; i < lines_count; i++) {
        following = (struct row){.unit = number};
        bool is_next = row_of(dwarf_onesrcline(lines, i), folder, &following);
        following.view = is_row && following.low == row.low ? row.view + 1 : 0;
        if (is_row && row.low >= lowest && following.low >= row.low) {
            row.high = following.low;
            keep(row);
        }
        row = following;
        is_row = is_next;
    }
    return true;
}

static int by_address(const void *left, const void *right) {
    const struct row *a = left, *b = right;
    if (a->low != b->low)
        return a->low < b->low ? -1 : 1;
    return a->number < b->number ? -1 : a->number > b->number;
}

void add_rows(void) {
    uint64_t end = 0; /* of the rows that were kept, with the unit of the last */
    uint32_t unit = 0;
    if (count)
        qsort(rows, count, sizeof *rows, by_address);
    for (size_t i = 0; i < count; i++) {
        const struct row *row = &rows[i];
        if (row->low < end && row->unit != unit)
            continue; /* of a unit whose copy of the function was left out by the linker */
        unit = row->unit;
        end = row->high;
        if (row->low < row->high) {
            add(PIECE_LOW, row->low, 8);
            add(PIECE_HIGH, row->high, 8);
            add(PIECE_FILE, row->file, 4);
            add(PIECE_LINE, row->line, 4);
            add(PIECE_COLUMN, row->column, 2);
            add(PIECE_BEGINS, row->begins, 1);
        } else {
            add(POINT_AT, row->low, 8);
            add(POINT_FILE, row->file, 4);
            add(POINT_LINE, row->line, 4);
            add(POINT_COLUMN, row->column, 2);
            add(POINT_BEGINS, row->begins, 1);
            add(POINT_VIEW, row->view, 4);
        }
    }
}
