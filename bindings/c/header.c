/* Header cases: the rows, what was kept, how it ended. And the look-ups by path. */
#include "replay.h"

#include <stdio.h>
#include <stdlib.h>

/* Words lent that make no row. */
#define ODD 7

static void put_parent(uint64_t parent) {
    if (parent == VCD_NONE) {
        fputs(" top", stdout);
    } else {
        put_number(parent);
    }
    putchar('\n');
}

static void put_rows(bytes dump, const uint64_t *rows, size_t lent, uint64_t count) {
    for (size_t i = 0; i < count; i++) {
        uint64_t row[VCD_ROW];
        check(vcd_row(rows, lent, i, row, VCD_ROW) == VCD_OK);
        put_row(dump, row);
        put_parent(row[VCD_ROW_PARENT]);
    }
}

static void put_kept(const char *name, bytes dump, const uint64_t *words) {
    fputs(name, stdout);
    if (words[0] == 0) {
        fputs(" -", stdout);
    } else {
        put_text(text_of(dump, words[1], words[2]));
    }
    putchar('\n');
}

static void put_head(bytes dump, const uint64_t *head) {
    put_kept("date", dump, &head[VCD_HEAD_DATE]);
    put_kept("version", dump, &head[VCD_HEAD_VERSION]);
    const uint64_t *timescale = &head[VCD_HEAD_TIMESCALE];
    if (timescale[0] == 0) {
        fputs("timescale -", stdout);
    } else {
        put_timescale(timescale[1], timescale[2]);
    }
    putchar('\n');
}

static void put_ended(uint64_t status, const uint64_t *cursor) {
    if (status == VCD_OK) {
        fputs("header", stdout);
    } else {
        fputs("refused", stdout);
        put_number(status);
    }
    put_number(cursor[VCD_CURSOR_LINE]);
    put_number(cursor[VCD_CURSOR_PLACE]);
    put_number(cursor[VCD_CURSOR_PENDING]);
    put_open(cursor[VCD_CURSOR_OPEN]);
    putchar('\n');
}

void answer_header(bytes given) {
    size_t lent = number_in(take_line(&given)) * VCD_ROW + ODD;
    uint64_t *rows = malloc(lent * sizeof(rows[0]));
    if (rows == NULL) {
        fputs("driver: no memory\n", stderr);
        exit(2);
    }
    mark_words(rows, lent);
    uint64_t cursor[VCD_CURSOR] = VCD_CURSOR_START, head[VCD_HEAD];
    mark_words(head, VCD_HEAD);
    uint64_t status = vcd_header(given.at, given.len, cursor, VCD_CURSOR, rows, lent, head, VCD_HEAD);
    put_rows(given, rows, lent, head[VCD_HEAD_COUNT]);
    put_head(given, head);
    put_ended(status, cursor);
    check_words(rows, head[VCD_HEAD_COUNT] * VCD_ROW, lent);
    free(rows);
}

static void put_found(const char *name, bytes input, const uint64_t *rows, size_t lent, uint64_t status, uint64_t found) {
    uint64_t row[VCD_ROW];
    check(status == VCD_OK);
    fputs(name, stdout);
    if (found == VCD_NONE) {
        puts(" -");
        return;
    }
    check(vcd_row(rows, lent, (size_t)found, row, VCD_ROW) == VCD_OK);
    if (row[VCD_ROW_KIND] == VCD_ITEM_SCOPE) {
        printf(" %s ", scope_name(row[VCD_ROW_TYPE]));
    } else {
        printf(" %s", var_name(row[VCD_ROW_TYPE]));
        put_number(row[VCD_ROW_WIDTH]);
        put_number(row[VCD_ROW_ID]);
        putchar(' ');
    }
    put_bytes(text_of(input, row[VCD_ROW_START], row[VCD_ROW_LEN]));
    putchar('\n');
}

/* A dump's header, a line `--`, then paths, one a line: the scope and the variable of each. */
void answer_find(bytes input) {
    uint64_t cursor[VCD_CURSOR] = VCD_CURSOR_START, rows[32 * VCD_ROW], head[VCD_HEAD];
    size_t lent = sizeof(rows) / sizeof(rows[0]);
    check(vcd_header(input.at, input.len, cursor, VCD_CURSOR, rows, lent, head, VCD_HEAD) == VCD_OK);
    size_t count = head[VCD_HEAD_COUNT];
    bytes rest = {input.at + cursor[VCD_CURSOR_PLACE], input.len - cursor[VCD_CURSOR_PLACE]};
    /* The blank behind the header's last `$end` is read with it, so that the line `--` comes next. */
    take_line(&rest);
    while (rest.len > 0) {
        bytes path = take_line(&rest);
        uint64_t found = 0, status = vcd_find_scope(input.at, input.len, rows, lent, count, path.at, path.len, &found);
        put_found("scope", input, rows, lent, status, found);
        status = vcd_find_var(input.at, input.len, rows, lent, count, path.at, path.len, &found);
        put_found("var", input, rows, lent, status, found);
    }
}
