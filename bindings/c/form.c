/* The canonical form of docs/ORACLE.md: texts, numbers, commands and rows. */
#include "replay.h"

#include <stdio.h>
#include <stdlib.h>
#include <string.h>

static const char *const UNITS[] = {"s", "ms", "us", "ns", "ps", "fs"};
static const char *const SCOPES[] = {"module", "task", "function", "begin", "fork"};
static const char *const VARS[] = {"event",  "integer", "parameter", "real", "reg",  "supply0", "supply1", "time", "tri",
                                   "triand", "trior",   "trireg",    "tri0", "tri1", "wand",    "wire",    "wor",  "string"};
static const char *const SIMS[] = {"dumpall", "dumpoff", "dumpon", "dumpvars"};
static const char VALUES[] = "01xz";

#define NAME(table, i) ((i) < sizeof(table) / sizeof((table)[0]) ? (table)[i] : "none")

const char *scope_name(uint64_t type) { return NAME(SCOPES, type); }

const char *var_name(uint64_t type) { return NAME(VARS, type); }

bytes take_line(bytes *rest) {
    const uint8_t *lf = rest->len > 0 ? memchr(rest->at, '\n', rest->len) : NULL;
    bytes line = {rest->at, lf != NULL ? (size_t)(lf - rest->at) : rest->len};
    size_t taken = lf != NULL ? line.len + 1 : line.len;
    rest->at += taken;
    rest->len -= taken;
    return line;
}

bytes word_at(bytes line, int k) {
    size_t start = 0;
    for (; k > 0 && start < line.len; start++) {
        k -= line.at[start] == ' ';
    }
    size_t end = start;
    while (end < line.len && line.at[end] != ' ') {
        end++;
    }
    return (bytes){line.at + start, end - start};
}

uint64_t number_in(bytes word) {
    char digits[24] = "";
    if (word.len < sizeof(digits)) {
        memcpy(digits, word.at, word.len);
    }
    return strtoull(digits, NULL, 10);
}

bytes text_of(bytes input, uint64_t start, uint64_t len) {
    check(start <= input.len && len <= input.len - start);
    return (bytes){input.at + start, (size_t)len};
}

void put_bytes(bytes text) { fwrite(text.at, 1, text.len, stdout); }

void put_number(uint64_t number) { printf(" %llu", (unsigned long long)number); }

void put_text(bytes text) {
    fputs(" \"", stdout);
    for (size_t i = 0; i < text.len; i++) {
        uint8_t b = text.at[i];
        if (b < 33 || b > 126 || b == '\\') {
            printf("\\x%02x", b);
        } else {
            putchar(b);
        }
    }
}

static void put_values(bytes text) {
    putchar(' ');
    for (size_t i = 0; i < text.len; i++) {
        putchar(text.at[i] | (text.at[i] >= 'A' ? 0x20 : 0));
    }
}

static int signed_of(uint64_t word) { return (int)(int32_t)(uint32_t)word; }

static void put_index(const uint64_t *words) {
    if (words[0] == VCD_INDEX_NONE) {
        fputs(" -", stdout);
    } else if (words[0] == VCD_INDEX_BIT) {
        printf(" [%d]", signed_of(words[1]));
    } else {
        printf(" [%d:%d]", signed_of(words[1]), signed_of(words[2]));
    }
}

static void put_named(const char *name, bytes text) {
    fputs(name, stdout);
    put_text(text);
}

static void put_var(uint64_t type, uint64_t width, uint64_t id, bytes name, const uint64_t *index) {
    printf("var %s", var_name(type));
    put_number(width);
    put_number(id);
    put_text(name);
    put_index(index);
}

static void put_scope(uint64_t type, bytes name) {
    printf("scope %s", scope_name(type));
    put_text(name);
}

void put_timescale(uint64_t quantity, uint64_t unit) {
    fputs("timescale", stdout);
    put_number(quantity);
    printf(" %s", NAME(UNITS, unit));
}

void put_open(uint64_t open) { printf(" %s", open == 0 ? "-" : NAME(SIMS, open - 1)); }

void put_refused_at(uint64_t number, uint64_t line) {
    printf("refused %llu at %llu\n", (unsigned long long)number, (unsigned long long)line);
}

static void put_change(const char *name, uint64_t id) {
    fputs(name, stdout);
    put_number(id);
}

void put_record(bytes input, const uint64_t *record) {
    uint64_t type = record[VCD_RECORD_TYPE], number = record[VCD_RECORD_NUMBER], id = record[VCD_RECORD_ID];
    bytes text = text_of(input, record[VCD_RECORD_START], record[VCD_RECORD_LEN]);
    switch (record[VCD_RECORD_KIND]) {
    case VCD_KIND_COMMENT: put_named("comment", text); break;
    case VCD_KIND_DATE: put_named("date", text); break;
    case VCD_KIND_VERSION: put_named("version", text); break;
    case VCD_KIND_TIMESCALE: put_timescale(number, type); break;
    case VCD_KIND_SCOPE: put_scope(type, text); break;
    case VCD_KIND_UPSCOPE: fputs("upscope", stdout); break;
    case VCD_KIND_VAR: put_var(type, number, id, text, &record[VCD_RECORD_FORM]); break;
    case VCD_KIND_ENDDEFINITIONS: fputs("enddefinitions", stdout); break;
    case VCD_KIND_TIME: put_change("time", number); break;
    case VCD_KIND_SCALAR:
        put_change("scalar", id);
        printf(" %c", type < 4 ? VALUES[type] : '?');
        break;
    case VCD_KIND_VECTOR:
        put_change("vector", id);
        put_values(text);
        break;
    case VCD_KIND_REAL:
        put_change("real", id);
        put_text(text);
        break;
    case VCD_KIND_STRING:
        put_change("string", id);
        put_text(text);
        break;
    case VCD_KIND_BEGIN: printf("begin %s", NAME(SIMS, type)); break;
    case VCD_KIND_END: printf("end %s", NAME(SIMS, type)); break;
    default: fputs("no command", stdout);
    }
}

void put_row(bytes input, const uint64_t *row) {
    bytes text = text_of(input, row[VCD_ROW_START], row[VCD_ROW_LEN]);
    switch (row[VCD_ROW_KIND]) {
    case VCD_ITEM_SCOPE: put_scope(row[VCD_ROW_TYPE], text); break;
    case VCD_ITEM_VAR: put_var(row[VCD_ROW_TYPE], row[VCD_ROW_WIDTH], row[VCD_ROW_ID], text, &row[VCD_ROW_FORM]); break;
    case VCD_ITEM_COMMENT: put_named("comment", text); break;
    default: fputs("no row", stdout);
    }
}

/* No text that may be written has the byte, and no array that is answered the word. */
#define MARK_BYTE 0xff
#define MARK_WORD 0xeeeeeeeeeeeeeeee

void mark_words(uint64_t *words, size_t len) {
    for (size_t i = 0; i < len; i++) {
        words[i] = MARK_WORD;
    }
}

void mark_bytes(uint8_t *at, size_t len) { memset(at, MARK_BYTE, len); }

void check_words(const uint64_t *words, size_t from, size_t len) {
    int same = 1;
    for (size_t i = from; i < len; i++) {
        same &= words[i] == MARK_WORD;
    }
    check(same);
}

void check_bytes(const uint8_t *at, size_t from, size_t len) {
    int same = 1;
    for (size_t i = from; i < len; i++) {
        same &= at[i] == MARK_BYTE;
    }
    check(same);
}

void check(int holds) {
    if (!holds) {
        puts("spoilt");
    }
}
