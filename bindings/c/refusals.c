/* Tests what is refused without a trace: every array that a call may be lent stands in one struct, which must be the same afterwards.
   Prints how many checks were made and which failed; its status is 1 if one did. */
#include "vcd.h"

#include <stdio.h>
#include <string.h>

#define U32_OVER 4294967296

/* Two words or rows more than a call takes, to lend too much. */
typedef struct {
    uint64_t cursor[VCD_CURSOR + 1], writer[VCD_WRITER + 1], since[VCD_SINCE + 1], record[2 * VCD_RECORD], head[VCD_HEAD + 1];
    uint64_t rows[4 * VCD_ROW], row[VCD_ROW + 1], changes[3 * VCD_CHANGE], change[VCD_CHANGE + 1], count, line, code, found;
    uint8_t out[256];
} lent;

static const char TEXT[] = "$comment c $end $date d $end $version v $end $timescale 1 s $end $scope module m $end $var wire 1 ! w [1:0] $end "
                           "$upscope $end $enddefinitions $end #1 1! b10 ! r1.5 ! sab ! $dumpvars $end ";
#define INPUT (const uint8_t *)TEXT, sizeof(TEXT) - 1

static lent now, before;
static unsigned checks, failed;

/* The state that each check starts from: a fresh cursor and writer, no time, a good record, header and listing. */
static void restore(void) {
    static const uint64_t cursor[VCD_CURSOR] = VCD_CURSOR_START, writer[VCD_WRITER] = VCD_WRITER_START;
    static const uint64_t since[VCD_SINCE] = VCD_SINCE_START;
    memset(&now, 0x5a, sizeof(now));
    memcpy(now.cursor, cursor, sizeof(cursor));
    memcpy(now.writer, writer, sizeof(writer));
    memcpy(now.since, since, sizeof(since));
    vcd_header(INPUT, now.cursor, VCD_CURSOR, now.rows, 4 * VCD_ROW, now.head, VCD_HEAD);
    vcd_list(INPUT, now.cursor, VCD_CURSOR, 0, now.changes, 3 * VCD_CHANGE, &now.count);
    memcpy(now.cursor, cursor, sizeof(cursor));
    vcd_next(INPUT, now.cursor, VCD_CURSOR, now.record, VCD_RECORD);
    memcpy(now.cursor, cursor, sizeof(cursor));
}

static void judge(int line, const char *call, uint64_t got, uint64_t wanted) {
    int same = memcmp(&now, &before, sizeof(now)) == 0;
    checks++;
    if (got != wanted || !same) {
        failed++;
        printf("refusals.c:%d: %s: answered %llu, not %llu%s\n", line, call, (unsigned long long)got, (unsigned long long)wanted,
               same ? "" : ", and left a trace");
    }
}

/* The answer, and nothing changed. */
#define REFUSES(number, call)                                                                                                              \
    do {                                                                                                                                   \
        before = now;                                                                                                                      \
        uint64_t got = (call);                                                                                                             \
        judge(__LINE__, #call, got, number);                                                                                               \
    } while (0)

/* The answer, where this part alone takes these values. */
#define SETS(number, call, part, ...)                                                                                                      \
    do {                                                                                                                                   \
        static const uint64_t wanted[] = {__VA_ARGS__};                                                                                    \
        before = now;                                                                                                                      \
        memcpy(&before.part, wanted, sizeof(wanted));                                                                                      \
        uint64_t got = (call);                                                                                                             \
        judge(__LINE__, #call, got, number);                                                                                               \
        restore();                                                                                                                         \
    } while (0)

#define NEXT(cursor_len, record_len) vcd_next(INPUT, now.cursor, cursor_len, now.record, record_len)
#define READ(cursor_len) vcd_read(INPUT, now.cursor, cursor_len, now.record, 2 * VCD_RECORD, &now.count)
#define HEADER(cursor_len, head_len) vcd_header(INPUT, now.cursor, cursor_len, now.rows, 4 * VCD_ROW, now.head, head_len)
#define LIST(cursor_len) vcd_list(INPUT, now.cursor, cursor_len, 0, now.changes, 3 * VCD_CHANGE, &now.count)
#define LIST_ON(cursor_len, since_len)                                                                                                     \
    vcd_list_on(INPUT, now.cursor, cursor_len, now.since, since_len, 0, now.changes, 3 * VCD_CHANGE, &now.count)
#define REWRITE(cursor_len, writer_len)                                                                                                    \
    vcd_rewrite(INPUT, now.cursor, cursor_len, now.writer, writer_len, now.out, sizeof(now.out), &now.count, &now.line)
#define COMMAND(writer_len, record_len)                                                                                                    \
    vcd_command(now.writer, writer_len, INPUT, now.record, record_len, now.out, sizeof(now.out), &now.count)
#define WRITE_HEADER(writer_len, head_len)                                                                                                 \
    vcd_write_header(now.writer, writer_len, INPUT, now.head, head_len, now.rows, 4 * VCD_ROW, now.out, sizeof(now.out), &now.count)

static void lengths(void) {
    for (int more = -1; more <= 1; more += 2) {
        REFUSES(VCD_BAD_PLACE, NEXT(VCD_CURSOR + more, VCD_RECORD));
        REFUSES(VCD_BAD_PLACE, NEXT(VCD_CURSOR, VCD_RECORD + more));
        REFUSES(VCD_BAD_PLACE, READ(VCD_CURSOR + more));
        REFUSES(VCD_BAD_PLACE, HEADER(VCD_CURSOR + more, VCD_HEAD));
        REFUSES(VCD_BAD_PLACE, HEADER(VCD_CURSOR, VCD_HEAD + more));
        REFUSES(VCD_BAD_PLACE, LIST(VCD_CURSOR + more));
        REFUSES(VCD_BAD_PLACE, LIST_ON(VCD_CURSOR + more, VCD_SINCE));
        REFUSES(VCD_BAD_PLACE, LIST_ON(VCD_CURSOR, VCD_SINCE + more));
        REFUSES(VCD_BAD_PLACE, REWRITE(VCD_CURSOR + more, VCD_WRITER));
        REFUSES(VCD_BAD_PLACE, REWRITE(VCD_CURSOR, VCD_WRITER + more));
        REFUSES(VCD_BAD_PLACE, COMMAND(VCD_WRITER + more, VCD_RECORD));
        REFUSES(VCD_BAD_PLACE, COMMAND(VCD_WRITER, VCD_RECORD + more));
        REFUSES(VCD_BAD_PLACE, WRITE_HEADER(VCD_WRITER + more, VCD_HEAD));
        REFUSES(VCD_BAD_PLACE, WRITE_HEADER(VCD_WRITER, VCD_HEAD + more));
        REFUSES(VCD_BAD_PLACE, vcd_row(now.rows, 4 * VCD_ROW, 0, now.row, VCD_ROW + more));
        REFUSES(VCD_BAD_PLACE, vcd_change(now.changes, 3 * VCD_CHANGE, 0, now.change, VCD_CHANGE + more));
    }
    REFUSES(VCD_BAD_PLACE, COMMAND(VCD_WRITER, 2 * VCD_RECORD));
    REFUSES(VCD_BAD_PLACE, NEXT(VCD_CURSOR, 2 * VCD_RECORD));
}

static void cursor_refused(void) {
    REFUSES(VCD_BAD_PLACE, NEXT(VCD_CURSOR, VCD_RECORD));
    REFUSES(VCD_BAD_PLACE, READ(VCD_CURSOR));
    REFUSES(VCD_BAD_PLACE, HEADER(VCD_CURSOR, VCD_HEAD));
    REFUSES(VCD_BAD_PLACE, LIST(VCD_CURSOR));
    REFUSES(VCD_BAD_PLACE, LIST_ON(VCD_CURSOR, VCD_SINCE));
    REFUSES(VCD_BAD_PLACE, REWRITE(VCD_CURSOR, VCD_WRITER));
    restore();
}

static void writer_refused(void) {
    REFUSES(VCD_BAD_PLACE, REWRITE(VCD_CURSOR, VCD_WRITER));
    REFUSES(VCD_BAD_PLACE, COMMAND(VCD_WRITER, VCD_RECORD));
    REFUSES(VCD_BAD_PLACE, WRITE_HEADER(VCD_WRITER, VCD_HEAD));
    restore();
}

static void since_refused(uint64_t timed, uint64_t time) {
    now.since[VCD_SINCE_TIMED] = timed;
    now.since[VCD_SINCE_TIME] = time;
    REFUSES(VCD_BAD_PLACE, LIST_ON(VCD_CURSOR, VCD_SINCE));
    restore();
}

static void states(void) {
    static const uint64_t bits[] = {2, UINT64_MAX}, opens[] = {5, UINT64_MAX};
    for (int i = 0; i < 2; i++) {
        now.cursor[VCD_CURSOR_PENDING] = bits[i];
        cursor_refused();
        now.cursor[VCD_CURSOR_OPEN] = opens[i];
        cursor_refused();
        now.writer[VCD_WRITER_OPEN] = opens[i];
        writer_refused();
        since_refused(bits[i], 0);
        since_refused(0, bits[i]);
    }
}

static void head_refused(int word, uint64_t value, int other, uint64_t with) {
    now.head[word] = value;
    now.head[other] = with;
    REFUSES(VCD_BAD_PLACE, WRITE_HEADER(VCD_WRITER, VCD_HEAD));
    restore();
}

/* What is kept is 0 and two zeros, or 1 and two numbers. */
static void heads(void) {
    static const int kept[] = {VCD_HEAD_DATE, VCD_HEAD_VERSION, VCD_HEAD_TIMESCALE};
    for (int i = 0; i < 3; i++) {
        head_refused(kept[i], 2, kept[i], 2);
        head_refused(kept[i], UINT64_MAX, kept[i], UINT64_MAX);
        now.head[kept[i] + 2] = 0;
        head_refused(kept[i], 0, kept[i] + 1, 1);
        now.head[kept[i] + 1] = 0;
        head_refused(kept[i], 0, kept[i] + 2, 1);
    }
    head_refused(VCD_HEAD_TIMESCALE + 1, U32_OVER, VCD_HEAD_TIMESCALE, 1);
    head_refused(VCD_HEAD_TIMESCALE + 2, 6, VCD_HEAD_TIMESCALE, 1);
}

/* The largest type, number and code of each kind; the largest start, length, and words of its index. */
static const struct {
    uint64_t type, number, id, text, form, first, second;
} MOST[] = {
    {0, 0, 0, 0, 0, 0, 0},
    {0, 0, 0, UINT64_MAX, 0, 0, 0},
    {0, 0, 0, UINT64_MAX, 0, 0, 0},
    {0, 0, 0, UINT64_MAX, 0, 0, 0},
    {5, UINT32_MAX, 0, 0, 0, 0, 0},
    {4, 0, 0, UINT64_MAX, 0, 0, 0},
    {0, 0, 0, 0, 0, 0, 0},
    {17, UINT32_MAX, UINT64_MAX, UINT64_MAX, 2, UINT32_MAX, UINT32_MAX},
    {0, 0, 0, 0, 0, 0, 0},
    {0, UINT64_MAX, 0, 0, 0, 0, 0},
    {3, 0, UINT64_MAX, 0, 0, 0, 0},
    {0, 0, UINT64_MAX, UINT64_MAX, 0, 0, 0},
    {0, 0, UINT64_MAX, UINT64_MAX, 0, 0, 0},
    {0, 0, UINT64_MAX, UINT64_MAX, 0, 0, 0},
    {3, 0, 0, 0, 0, 0, 0},
    {3, 0, 0, 0, 0, 0, 0},
};

static uint64_t command_with(const uint64_t *record, int word, uint64_t value) {
    memcpy(now.record, record, VCD_RECORD * sizeof(record[0]));
    now.record[word] = value;
    before = now;
    return COMMAND(VCD_WRITER, VCD_RECORD);
}

/* One past the largest is refused without a trace; the largest itself is a record, and at most refused by 22. */
static void word_bound(const uint64_t *record, int word, uint64_t most) {
    if (most != UINT64_MAX) {
        judge(__LINE__, "a word past its largest", command_with(record, word, most + 1), VCD_BAD_PLACE);
        restore();
        uint64_t got = command_with(record, word, most);
        before = now;
        judge(__LINE__, "a word at its largest", got == VCD_NOT_WRITABLE ? VCD_OK : got, VCD_OK);
        restore();
    }
}

/* Each kind's record as it is read. */
static void records(void) {
    uint64_t cursor[VCD_CURSOR] = VCD_CURSOR_START, record[VCD_RECORD], kinds = 0;
    while (vcd_next(INPUT, cursor, VCD_CURSOR, record, VCD_RECORD) == VCD_OK) {
        uint64_t kind = record[VCD_RECORD_KIND];
        kinds |= (uint64_t)1 << kind;
        word_bound(record, VCD_RECORD_TYPE, MOST[kind].type);
        word_bound(record, VCD_RECORD_NUMBER, MOST[kind].number);
        word_bound(record, VCD_RECORD_ID, MOST[kind].id);
        word_bound(record, VCD_RECORD_START, MOST[kind].text);
        word_bound(record, VCD_RECORD_LEN, MOST[kind].text);
        word_bound(record, VCD_RECORD_FORM, MOST[kind].form);
        word_bound(record, VCD_RECORD_FIRST, MOST[kind].first);
        word_bound(record, VCD_RECORD_SECOND, MOST[kind].second);
    }
    before = now;
    judge(__LINE__, "kinds met", kinds, 0xfffe);
    now.record[VCD_RECORD_KIND] = 0;
    REFUSES(VCD_BAD_PLACE, COMMAND(VCD_WRITER, VCD_RECORD));
    now.record[VCD_RECORD_KIND] = VCD_KIND_END + 1;
    REFUSES(VCD_BAD_PLACE, COMMAND(VCD_WRITER, VCD_RECORD));
    restore();
}

/* A variable's index: no numbers without a form, one number for a bit. */
static void index_refused(uint64_t form, uint64_t first, uint64_t second) {
    static const uint64_t var[VCD_RECORD] = {VCD_KIND_VAR, VCD_VAR_WIRE, 1, 0, 0, 1, 0, 0, 0};
    memcpy(now.record, var, sizeof(var));
    now.writer[VCD_WRITER_DEPTH] = 1;
    now.record[VCD_RECORD_FORM] = form;
    now.record[VCD_RECORD_FIRST] = first;
    now.record[VCD_RECORD_SECOND] = second;
    REFUSES(VCD_BAD_PLACE, COMMAND(VCD_WRITER, VCD_RECORD));
    restore();
}

static void indexes(void) {
    index_refused(VCD_INDEX_NONE, 1, 0);
    index_refused(VCD_INDEX_NONE, 0, 1);
    index_refused(VCD_INDEX_BIT, U32_OVER, 0);
    index_refused(VCD_INDEX_BIT, 0, 1);
    index_refused(VCD_INDEX_RANGE + 1, 0, 0);
}

/* A cursor that cannot stand in the input: only counts, head and line tell of the call. */
static void cursors_outside(void) {
    static const uint64_t outside[][VCD_CURSOR] = {
        {sizeof(TEXT), 1, 0, 0}, {UINT64_MAX, 1, 0, 0}, {0, 0, 0, 0}, {5, 7, 0, 0}, {5, 6, 1, 0}};
    for (size_t i = 0; i < sizeof(outside) / sizeof(outside[0]); i++) {
#define OUTSIDE memcpy(now.cursor, outside[i], sizeof(outside[i]))
        OUTSIDE;
        REFUSES(VCD_BAD_PLACE, NEXT(VCD_CURSOR, VCD_RECORD));
        SETS(VCD_BAD_PLACE, READ(VCD_CURSOR), count, 0);
        OUTSIDE;
        SETS(VCD_BAD_PLACE, LIST(VCD_CURSOR), count, 0);
        OUTSIDE;
        now.since[VCD_SINCE_TIMED] = 1;
        SETS(VCD_BAD_PLACE, LIST_ON(VCD_CURSOR, VCD_SINCE), count, 0);
        OUTSIDE;
        SETS(VCD_BAD_PLACE, HEADER(VCD_CURSOR, VCD_HEAD), head, 0, 0, 0, 0, 0, 0, 0, 0, 0, 0);
        OUTSIDE;
        now.line = outside[i][VCD_CURSOR_LINE];
        SETS(VCD_BAD_PLACE, REWRITE(VCD_CURSOR, VCD_WRITER), count, 0);
    }
}

#define FIND(what, count, path, len)                                                                                                       \
    vcd_find_##what(INPUT, now.rows, 4 * VCD_ROW, count, (const uint8_t *)(path), len, &now.found)

static void tables(void) {
    REFUSES(VCD_BAD_PLACE, vcd_row(now.rows, 4 * VCD_ROW, 4, now.row, VCD_ROW));
    REFUSES(VCD_BAD_PLACE, vcd_row(now.rows, 4 * VCD_ROW, SIZE_MAX, now.row, VCD_ROW));
    REFUSES(VCD_BAD_PLACE, vcd_row(now.rows, VCD_ROW - 1, 0, now.row, VCD_ROW));
    REFUSES(VCD_BAD_PLACE, vcd_row(now.rows, 4 * VCD_ROW, 3, now.row, VCD_ROW));
    REFUSES(VCD_BAD_PLACE, vcd_change(now.changes, 3 * VCD_CHANGE, 3, now.change, VCD_CHANGE));
    REFUSES(VCD_BAD_PLACE, vcd_change(now.changes, 3 * VCD_CHANGE, SIZE_MAX, now.change, VCD_CHANGE));
    REFUSES(VCD_BAD_PLACE, vcd_change(now.changes, VCD_CHANGE - 1, 0, now.change, VCD_CHANGE));
    now.changes[VCD_CHANGE_KIND] = 5;
    REFUSES(VCD_BAD_PLACE, vcd_change(now.changes, 3 * VCD_CHANGE, 0, now.change, VCD_CHANGE));
    restore();
    SETS(VCD_OK, FIND(scope, SIZE_MAX, "x", 1), found, VCD_NONE);
    SETS(VCD_OK, FIND(var, SIZE_MAX, "m", 1), found, VCD_NONE);
    SETS(VCD_OK, FIND(var, SIZE_MAX, "m w", 3), found, 2);
    SETS(VCD_OK, FIND(var, 2, "m w", 3), found, VCD_NONE);
    /* The last row's text outside the input: 25 wherever the path leads, where that row is among those counted. */
    now.rows[2 * VCD_ROW + VCD_ROW_START] = sizeof(TEXT) - 1;
    REFUSES(VCD_BAD_PLACE, FIND(var, SIZE_MAX, "m w", 3));
    REFUSES(VCD_BAD_PLACE, FIND(scope, 3, "m", 1));
    REFUSES(VCD_BAD_PLACE, FIND(scope, 3, "", 0));
    SETS(VCD_OK, FIND(scope, 2, "m", 1), found, 1);
}

#define ID_CODE(text, len) vcd_id_code((const uint8_t *)(text), len, &now.code)

static void ids(void) {
    REFUSES(VCD_ID_EMPTY, ID_CODE("", 0));
    for (int b = 0; b < 256; b++) {
        uint8_t text[] = {'!', (uint8_t)b};
        if (b < 33 || b > 126) {
            REFUSES(VCD_ID_INVALID_CHARS, ID_CODE(text, 2));
        }
    }
    REFUSES(VCD_ID_TOO_LONG, ID_CODE("!!!!!!!!!!!", 11));
    REFUSES(VCD_NOT_WRITABLE, vcd_id_text(VCD_NONE, now.out, sizeof(now.out), &now.count));
    REFUSES(VCD_NO_ROOM, vcd_id_text(94, now.out, 1, &now.count));
    REFUSES(VCD_NO_ROOM, vcd_id_text(0, now.out, 0, &now.count));
    REFUSES(VCD_NO_ROOM, vcd_id_text(VCD_NONE - 1, now.out, VCD_ID_TEXT - 1, &now.count));
}

/* The last code's text reads back; the text after it, which would mean 2^64 - 1, is too long. */
static void last_id(void) {
    uint8_t text[VCD_ID_TEXT];
    uint64_t count = 0;
    vcd_id_text(VCD_NONE - 1, text, VCD_ID_TEXT, &count);
    SETS(VCD_OK, ID_CODE(text, (size_t)count), code, UINT64_MAX - 1);
    text[0]++;
    REFUSES(VCD_ID_TOO_LONG, ID_CODE(text, (size_t)count));
}

#define WIDEN(start, len, room) vcd_widen((const uint8_t *)"10q", 3, start, len, 4, now.out, room, &now.count)

/* The other refusals that leave no trace, in their order. */
static void others(void) {
    REFUSES(VCD_BAD_PLACE, WIDEN(2, 2, 0));
    REFUSES(VCD_BAD_PLACE, WIDEN(SIZE_MAX, 2, 0));
    REFUSES(VCD_INVALID_VALUE_CHAR, WIDEN(1, 2, 0));
    REFUSES(VCD_INVALID_VALUE_CHAR, WIDEN(1, 0, 0));
    REFUSES(VCD_NO_ROOM, WIDEN(0, 2, 3));
    now.record[VCD_RECORD_START] = sizeof(TEXT);
    REFUSES(VCD_BAD_PLACE, COMMAND(VCD_WRITER, VCD_RECORD));
    now.record[VCD_RECORD_START] = 0;
    now.record[VCD_RECORD_LEN] = sizeof(TEXT) - 1;
    REFUSES(VCD_NOT_WRITABLE, COMMAND(VCD_WRITER, VCD_RECORD));
    restore();
    REFUSES(VCD_NO_ROOM, vcd_command(now.writer, VCD_WRITER, INPUT, now.record, VCD_RECORD, now.out, 5, &now.count));
    now.head[VCD_HEAD_DATE + 1] = sizeof(TEXT);
    SETS(VCD_BAD_PLACE, WRITE_HEADER(VCD_WRITER, VCD_HEAD), count, 0);
    now.rows[VCD_ROW + VCD_ROW_PARENT] = 1;
    SETS(VCD_BAD_TABLE, WRITE_HEADER(VCD_WRITER, VCD_HEAD), count, 0);
}

int main(void) {
    static void (*const parts[])(void) = {lengths, states,  heads,  records, indexes, cursors_outside,
                                          tables,  ids,     last_id, others};
    for (size_t i = 0; i < sizeof(parts) / sizeof(parts[0]); i++) {
        restore();
        parts[i]();
    }
    printf("%u checks, %u failed\n", checks, failed);
    return failed > 0;
}
