/* Write cases: a script of writer calls, each made by vcd_command, a header by vcd_write_header. And the texts and codes of ids. */
#include "replay.h"

#include <stdio.h>
#include <stdlib.h>
#include <string.h>

#define MOST_ROOM 4096
#define MOST_WORDS 1024

/* The calls by number: name, kind, and what the words of a line are in their order: T type, S simulation command, N number, I id,
   X text, V index. */
static const struct {
    const char *name;
    uint64_t kind;
    const char *words;
} CALLS[] = {
    {"", 0, ""},
    {"comment", VCD_KIND_COMMENT, "X"},
    {"date", VCD_KIND_DATE, "X"},
    {"version", VCD_KIND_VERSION, "X"},
    {"timescale", VCD_KIND_TIMESCALE, "NT"},
    {"scope_def", VCD_KIND_SCOPE, "TX"},
    {"add_module", VCD_KIND_SCOPE, "X"},
    {"upscope", VCD_KIND_UPSCOPE, ""},
    {"var_def", VCD_KIND_VAR, "TNIXV"},
    {"add_var", VCD_KIND_VAR, "TNXV"},
    {"add_wire", VCD_KIND_VAR, "NX"},
    {"enddefinitions", VCD_KIND_ENDDEFINITIONS, ""},
    {"timestamp", VCD_KIND_TIME, "N"},
    {"change_scalar", VCD_KIND_SCALAR, "IT"},
    {"change_vector", VCD_KIND_VECTOR, "IX"},
    {"change_real", VCD_KIND_REAL, "IX"},
    {"change_string", VCD_KIND_STRING, "IX"},
    {"begin", VCD_KIND_BEGIN, "S"},
    {"end", VCD_KIND_END, "S"},
};

enum { ADD_VAR = 9, ADD_WIRE = 10, HEADER = 19 };

/* An index number, which may be negative, as 32 bits of two's complement. */
static uint64_t index_in(bytes word) {
    char digits[16] = "";
    if (word.len < sizeof(digits)) {
        memcpy(digits, word.at, word.len);
    }
    return (uint32_t)(int32_t)strtol(digits, NULL, 10);
}

static void fill_index(bytes line, int at, uint64_t *index) {
    index[0] = number_in(word_at(line, at));
    for (uint64_t i = 1; i <= index[0] && i <= 2; i++) {
        index[i] = index_in(word_at(line, at + (int)i));
    }
}

/* The record of a line's call; `next` is the id that a variable gets where the call names none. */
static void fill_record(bytes line, uint64_t call, uint64_t next, uint64_t *record) {
    memset(record, 0, VCD_RECORD * sizeof(record[0]));
    record[VCD_RECORD_KIND] = CALLS[call].kind;
    if (call == ADD_VAR || call == ADD_WIRE) {
        record[VCD_RECORD_ID] = next;
    }
    if (call == ADD_WIRE) {
        record[VCD_RECORD_TYPE] = VCD_VAR_WIRE;
    }
    int at = 2;
    for (const char *w = CALLS[call].words; *w != 0; w++, at++) {
        uint64_t number = number_in(word_at(line, at));
        switch (*w) {
        case 'T': record[VCD_RECORD_TYPE] = number; break;
        case 'S': record[VCD_RECORD_TYPE] = number - 1; break;
        case 'N': record[VCD_RECORD_NUMBER] = number; break;
        case 'I': record[VCD_RECORD_ID] = number; break;
        case 'X':
            record[VCD_RECORD_START] = number;
            record[VCD_RECORD_LEN] = number_in(word_at(line, ++at));
            break;
        case 'V': fill_index(line, at, &record[VCD_RECORD_FORM]); break;
        }
    }
}

/* The bytes that were written, and the state. */
static void put_written(const uint64_t *writer, const uint8_t *out, uint64_t count) {
    put_number(count);
    put_text((bytes){out, (size_t)count});
    put_number(writer[VCD_WRITER_DEPTH]);
    put_number(writer[VCD_WRITER_NEXT]);
    put_open(writer[VCD_WRITER_OPEN]);
}

/* A header's words stand behind its number: those of the head, then the table's. Commands before a refusal stay. */
static void answer_table(bytes source, bytes line, uint64_t *writer, uint64_t room) {
    uint8_t out[MOST_ROOM];
    uint64_t words[MOST_WORDS], count = 0;
    size_t len = 0;
    for (bytes word = word_at(line, 2); word.len > 0 && len < MOST_WORDS; word = word_at(line, (int)len + 2)) {
        words[len++] = number_in(word);
    }
    check(len >= VCD_HEAD);
    mark_bytes(out, MOST_ROOM);
    uint64_t status = vcd_write_header(writer, VCD_WRITER, source.at, source.len, words, VCD_HEAD, words + VCD_HEAD, len - VCD_HEAD, out,
                                       (size_t)room, &count);
    if (status == VCD_OK) {
        fputs("header ok", stdout);
    } else {
        printf("header refused %llu", (unsigned long long)status);
    }
    put_written(writer, out, count);
    putchar('\n');
    check_bytes(out, count, MOST_ROOM);
}

static void put_ok(uint64_t call, const uint64_t *writer, const uint8_t *out, uint64_t count, uint64_t next) {
    printf("%s ok", CALLS[call].name);
    put_written(writer, out, count);
    if (call == ADD_VAR || call == ADD_WIRE) {
        put_number(next);
    }
    putchar('\n');
}

static void answer_call(bytes source, bytes line, uint64_t *writer) {
    uint8_t out[MOST_ROOM];
    uint64_t room = number_in(word_at(line, 0)), call = number_in(word_at(line, 1));
    if (room <= MOST_ROOM && call == HEADER) {
        answer_table(source, line, writer, room);
        return;
    }
    if (room > MOST_ROOM || call < 1 || call >= sizeof(CALLS) / sizeof(CALLS[0])) {
        fputs("driver: no such call\n", stderr);
        exit(2);
    }
    uint64_t record[VCD_RECORD], before[VCD_WRITER], count = VCD_NONE;
    memcpy(before, writer, sizeof(before));
    fill_record(line, call, before[VCD_WRITER_NEXT], record);
    mark_bytes(out, MOST_ROOM);
    uint64_t status = vcd_command(writer, VCD_WRITER, source.at, source.len, record, VCD_RECORD, out, (size_t)room, &count);
    if (status == VCD_OK) {
        put_ok(call, writer, out, count, before[VCD_WRITER_NEXT]);
        check_bytes(out, count, MOST_ROOM);
        return;
    }
    printf("%s refused %llu\n", CALLS[call].name, (unsigned long long)status);
    check(count == VCD_NONE && memcmp(before, writer, sizeof(before)) == 0);
    check_bytes(out, 0, MOST_ROOM);
}

void answer_write(bytes script) {
    bytes first = take_line(&script);
    bytes source = text_of(script, 0, number_in(word_at(first, 0)));
    uint64_t writer[VCD_WRITER];
    for (int i = 0; i < VCD_WRITER; i++) {
        writer[i] = number_in(word_at(first, i + 1));
    }
    script = text_of(script, source.len + 1, script.len - source.len - 1);
    while (script.len > 0) {
        answer_call(source, take_line(&script), writer);
    }
}

static void put_id_text(uint64_t code) {
    uint8_t out[VCD_ID_TEXT];
    uint64_t count = 0;
    check(vcd_id_text(code, out, VCD_ID_TEXT, &count) == VCD_OK);
    putchar(' ');
    put_bytes((bytes){out, (size_t)count});
    putchar('\n');
}

/* Lines `code CODE ..` and `id TEXT ..`: the text of the code; the code of the text, and the text of that. */
void answer_ids(bytes lines) {
    while (lines.len > 0) {
        bytes line = take_line(&lines), name = word_at(line, 0), word = word_at(line, 1);
        put_bytes(name);
        putchar(' ');
        put_bytes(word);
        uint64_t code = number_in(word);
        uint64_t status = name.len == 2 ? vcd_id_code(word.at, word.len, &code) : VCD_OK;
        if (status != VCD_OK) {
            printf(" refused %llu\n", (unsigned long long)status);
            continue;
        }
        if (name.len == 2) {
            put_number(code);
        }
        put_id_text(code);
    }
}
