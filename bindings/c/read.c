/* Read cases: every command with the line and place behind it, up to the end or the fourth refusal. */
#include "replay.h"

#include <stdio.h>
#include <string.h>

#define REFUSALS 4

static void put_place(const uint64_t *cursor) {
    put_number(cursor[VCD_CURSOR_LINE]);
    put_number(cursor[VCD_CURSOR_PLACE]);
    putchar('\n');
}

/* How reading ended; answers whether the case ends with it. */
static int put_ended(uint64_t status, const uint64_t *cursor, int *refusals) {
    if (status == VCD_DONE) {
        fputs("done", stdout);
    } else {
        fputs("refused", stdout);
        put_number(status);
        *refusals += 1;
    }
    put_place(cursor);
    return status == VCD_DONE || *refusals == REFUSALS;
}

void answer_read_next(bytes dump) {
    uint64_t cursor[VCD_CURSOR] = VCD_CURSOR_START;
    int refusals = 0;
    for (;;) {
        uint64_t record[VCD_RECORD];
        mark_words(record, VCD_RECORD);
        uint64_t status = vcd_next(dump.at, dump.len, cursor, VCD_CURSOR, record, VCD_RECORD);
        if (status == VCD_OK) {
            put_record(dump, record);
            put_place(cursor);
            continue;
        }
        check_words(record, 0, VCD_RECORD);
        if (put_ended(status, cursor, &refusals)) {
            return;
        }
    }
}

/* Records a table, and words that make none. */
#define TABLE 3
#define ODD 5
#define LENT (TABLE * VCD_RECORD + ODD)

/* The cursor behind the first n records of a table, which a table of n must give too. */
static void cursor_behind(bytes dump, uint64_t *cursor, const uint64_t *table, size_t n) {
    uint64_t again[TABLE * VCD_RECORD], count;
    uint64_t status = vcd_read(dump.at, dump.len, cursor, VCD_CURSOR, again, n * VCD_RECORD, &count);
    check(status == VCD_OK && count == n && memcmp(again, table, n * VCD_RECORD * sizeof(again[0])) == 0);
}

static void put_table(bytes dump, const uint64_t *from, const uint64_t *table, uint64_t count) {
    for (size_t i = 0; i < count; i++) {
        uint64_t cursor[VCD_CURSOR];
        memcpy(cursor, from, sizeof(cursor));
        cursor_behind(dump, cursor, table, i + 1);
        put_record(dump, table + i * VCD_RECORD);
        put_place(cursor);
    }
}

void answer_read_table(bytes dump) {
    uint64_t cursor[VCD_CURSOR] = VCD_CURSOR_START;
    int refusals = 0;
    for (;;) {
        uint64_t from[VCD_CURSOR], table[LENT], count = VCD_NONE;
        memcpy(from, cursor, sizeof(from));
        mark_words(table, LENT);
        uint64_t status = vcd_read(dump.at, dump.len, cursor, VCD_CURSOR, table, LENT, &count);
        check(status == VCD_OK ? count == TABLE : count <= TABLE);
        put_table(dump, from, table, count);
        check_words(table, count * VCD_RECORD, LENT);
        if (status != VCD_OK && put_ended(status, cursor, &refusals)) {
            return;
        }
    }
}
