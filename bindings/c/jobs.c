/* List and reformat cases: what the programs vcd_list and vcd_reformat print for a dump. */
#include "replay.h"

#include <stdio.h>
#include <string.h>

/* The programs' limits. */
#define TAKEN 65536
#define HEADER_ROWS 256
#define CHANGES 1024
#define LENT 65536

static int too_long(bytes dump) {
    if (dump.len > TAKEN) {
        puts("input too long");
        return 1;
    }
    return 0;
}

/* Header and cursor behind it; answers whether it was read, and else prints the refusal. */
static int read_header(bytes dump, uint64_t *cursor, uint64_t *rows, uint64_t *head) {
    uint64_t status = vcd_header(dump.at, dump.len, cursor, VCD_CURSOR, rows, HEADER_ROWS * VCD_ROW, head, VCD_HEAD);
    if (status != VCD_OK) {
        put_refused_at(status, cursor[VCD_CURSOR_LINE]);
    }
    return status == VCD_OK;
}

static void put_wide(bytes dump, const uint64_t *change, uint64_t width) {
    static uint8_t out[TAKEN + 1024];
    uint64_t count = 0;
    uint64_t status = vcd_widen(dump.at, dump.len, (size_t)change[VCD_CHANGE_START], (size_t)change[VCD_CHANGE_LEN], (uint32_t)width, out,
                                sizeof(out), &count);
    check(status == VCD_OK);
    put_bytes((bytes){out, (size_t)count});
}

static void put_value(bytes dump, const uint64_t *change, uint64_t width) {
    switch (change[VCD_CHANGE_KIND]) {
    case VCD_LISTED_SCALAR: put_wide(dump, change, 1); break;
    case VCD_LISTED_VECTOR: put_wide(dump, change, width); break;
    default: put_bytes(text_of(dump, change[VCD_CHANGE_START], change[VCD_CHANGE_LEN]));
    }
}

static void put_change(bytes dump, bytes reference, uint64_t width, const uint64_t *change) {
    put_bytes(reference);
    if (change[VCD_CHANGE_TIMED] == 0) {
        fputs(" -", stdout);
    } else {
        put_number(change[VCD_CHANGE_TIME]);
    }
    put_number(change[VCD_CHANGE_LINE]);
    putchar(' ');
    put_value(dump, change, width);
    putchar('\n');
}

/* A listing with the time beside it: how it ended, and what it left. */
typedef struct {
    uint64_t status, count, cursor[VCD_CURSOR], since[VCD_SINCE], changes[CHANGES * VCD_CHANGE];
} listing;

static void list_whole(bytes dump, const uint64_t *start, uint64_t id, listing *l) {
    static const uint64_t none[VCD_SINCE] = VCD_SINCE_START;
    memcpy(l->cursor, start, sizeof(l->cursor));
    memcpy(l->since, none, sizeof(none));
    mark_words(l->changes, CHANGES * VCD_CHANGE);
    l->status = vcd_list_on(dump.at, dump.len, l->cursor, VCD_CURSOR, l->since, VCD_SINCE, id, l->changes, CHANGES * VCD_CHANGE, &l->count);
}

/* The same by pages of so many rows, each from the cursor and the time that 24 left: joined, they are the one listing, as far as that had
   room. */
static void check_pages(bytes dump, const uint64_t *start, uint64_t id, size_t lent, const listing *whole) {
    uint64_t cursor[VCD_CURSOR], since[VCD_SINCE] = VCD_SINCE_START, page[8 * VCD_CHANGE], done = 0, some = 0, status;
    memcpy(cursor, start, sizeof(cursor));
    do {
        mark_words(page, 8 * VCD_CHANGE);
        status = vcd_list_on(dump.at, dump.len, cursor, VCD_CURSOR, since, VCD_SINCE, id, page, lent * VCD_CHANGE, &some);
        check(status == VCD_LIST_FULL ? some == lent : some <= lent);
        check_words(page, some * VCD_CHANGE, 8 * VCD_CHANGE);
        check(done + some <= whole->count);
        check(memcmp(page, whole->changes + done * VCD_CHANGE, some * VCD_CHANGE * sizeof(page[0])) == 0);
        done += some;
    } while (status == VCD_LIST_FULL && done < whole->count);
    check(done == whole->count && status == whole->status);
    check(memcmp(cursor, whole->cursor, sizeof(cursor)) == 0 && memcmp(since, whole->since, sizeof(since)) == 0);
}

/* The lines of one variable from the cursor on; answers the refusal of reading that it met, or VCD_OK. */
static uint64_t list_var(bytes dump, uint64_t *cursor, const uint64_t *row) {
    static uint64_t changes[CHANGES * VCD_CHANGE];
    static listing whole;
    bytes reference = text_of(dump, row[VCD_ROW_START], row[VCD_ROW_LEN]);
    uint64_t count = 0, start[VCD_CURSOR];
    memcpy(start, cursor, sizeof(start));
    mark_words(changes, CHANGES * VCD_CHANGE);
    uint64_t status = vcd_list(dump.at, dump.len, cursor, VCD_CURSOR, row[VCD_ROW_ID], changes, CHANGES * VCD_CHANGE, &count);
    check_words(changes, count * VCD_CHANGE, CHANGES * VCD_CHANGE);
    list_whole(dump, start, row[VCD_ROW_ID], &whole);
    check(whole.status == status && whole.count == count && memcmp(whole.cursor, cursor, sizeof(start)) == 0);
    check(memcmp(whole.changes, changes, sizeof(changes)) == 0);
    /* 1,024 is so many pages of 1, 2 or 8 rows. */
    check_pages(dump, start, row[VCD_ROW_ID], 1, &whole);
    check_pages(dump, start, row[VCD_ROW_ID], 2, &whole);
    check_pages(dump, start, row[VCD_ROW_ID], 8, &whole);
    for (size_t i = 0; i < count; i++) {
        uint64_t change[VCD_CHANGE];
        check(vcd_change(changes, CHANGES * VCD_CHANGE, i, change, VCD_CHANGE) == VCD_OK);
        put_change(dump, reference, row[VCD_ROW_WIDTH], change);
    }
    if (status != VCD_LIST_FULL) {
        return status;
    }
    put_bytes(reference);
    puts(" full");
    return VCD_OK;
}

void answer_list(bytes dump) {
    static uint64_t rows[HEADER_ROWS * VCD_ROW];
    uint64_t start[VCD_CURSOR] = VCD_CURSOR_START, head[VCD_HEAD], met = VCD_OK, line = 0;
    if (too_long(dump) || !read_header(dump, start, rows, head)) {
        return;
    }
    for (size_t i = 0; i < head[VCD_HEAD_COUNT]; i++) {
        const uint64_t *row = rows + i * VCD_ROW;
        if (row[VCD_ROW_KIND] != VCD_ITEM_VAR) {
            continue;
        }
        uint64_t cursor[VCD_CURSOR] = {start[0], start[1], start[2], start[3]};
        uint64_t status = list_var(dump, cursor, row);
        if (status != VCD_OK) {
            met = status;
            line = cursor[VCD_CURSOR_LINE];
        }
    }
    if (met != VCD_OK) {
        put_refused_at(met, line);
    }
}

/* Where rewriting was refused: behind what cannot be read, or before a command that is read but not written; the line is the reader's
   behind it either way. */
static void check_refused(bytes dump, const uint64_t *cursor, const uint64_t *writer, uint64_t status, uint64_t line) {
    static uint8_t out[LENT];
    uint64_t next[VCD_CURSOR], state[VCD_WRITER], record[VCD_RECORD], count;
    memcpy(next, cursor, sizeof(next));
    memcpy(state, writer, sizeof(state));
    if (status == VCD_NOT_WRITABLE || status == VCD_NO_ROOM) {
        check(vcd_next(dump.at, dump.len, next, VCD_CURSOR, record, VCD_RECORD) == VCD_OK);
        check(vcd_command(state, VCD_WRITER, dump.at, dump.len, record, VCD_RECORD, out, LENT, &count) == status);
    }
    check(next[VCD_CURSOR_LINE] == line);
}

/* The commands from the cursor on, as many at a time as one output has room for: little at first, and more where it is needed. */
static void rewrite_rest(bytes dump, uint64_t *cursor, uint64_t *writer, uint8_t *out) {
    size_t room = 16;
    for (;;) {
        uint64_t count = 0, line = 0;
        mark_bytes(out, LENT);
        uint64_t status = vcd_rewrite(dump.at, dump.len, cursor, VCD_CURSOR, writer, VCD_WRITER, out, room, &count, &line);
        check_bytes(out, count, LENT);
        put_bytes((bytes){out, (size_t)count});
        if (status == VCD_OK) {
            return;
        }
        if (status != VCD_NO_ROOM || (count == 0 && room == LENT)) {
            check_refused(dump, cursor, writer, status, line);
            put_refused_at(status, line);
            return;
        }
        room = count == 0 ? room * 2 : room;
    }
}

/* The same, one command at a time. */
static void write_rest(bytes dump, uint64_t *cursor, uint64_t *writer, uint8_t *out) {
    for (;;) {
        uint64_t record[VCD_RECORD], count = 0;
        uint64_t status = vcd_next(dump.at, dump.len, cursor, VCD_CURSOR, record, VCD_RECORD);
        if (status == VCD_DONE) {
            return;
        }
        if (status == VCD_OK) {
            status = vcd_command(writer, VCD_WRITER, dump.at, dump.len, record, VCD_RECORD, out, LENT, &count);
        }
        if (status != VCD_OK) {
            put_refused_at(status, cursor[VCD_CURSOR_LINE]);
            return;
        }
        put_bytes((bytes){out, (size_t)count});
    }
}

static void reformat(bytes dump, void (*rest)(bytes, uint64_t *, uint64_t *, uint8_t *)) {
    static uint64_t rows[HEADER_ROWS * VCD_ROW];
    static uint8_t out[LENT];
    uint64_t cursor[VCD_CURSOR] = VCD_CURSOR_START, writer[VCD_WRITER] = VCD_WRITER_START, head[VCD_HEAD], count = VCD_NONE;
    if (too_long(dump) || !read_header(dump, cursor, rows, head)) {
        return;
    }
    mark_bytes(out, LENT);
    uint64_t status = vcd_write_header(writer, VCD_WRITER, dump.at, dump.len, head, VCD_HEAD, rows, HEADER_ROWS * VCD_ROW, out, LENT, &count);
    check_bytes(out, count, LENT);
    put_bytes((bytes){out, (size_t)count});
    if (status != VCD_OK) {
        put_refused_at(status, cursor[VCD_CURSOR_LINE]);
        return;
    }
    rest(dump, cursor, writer, out);
}

void answer_reformat_rewrite(bytes dump) { reformat(dump, rewrite_rest); }

void answer_reformat_command(bytes dump) { reformat(dump, write_rest); }
