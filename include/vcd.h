/* The proved reader and writer of value change dumps, for C and C++: its calls, and names for their numbers. Layouts of the arrays and
   the caller's duties: docs/ABI.md.

   Every array is lent as pointer and length in elements. Each call answers VCD_OK, VCD_DONE or a refusal's number. A fixed array of
   another length than its macro says, or one whose words are no state, head or record, is refused by VCD_BAD_PLACE with nothing changed;
   each comment speaks of the other cases. "A cursor outside" is one that cannot stand in this input, or an input over 4,294,967,295
   bytes. "Reading refusals" are 1 to 15, 17 and 18 without 8; their line is then the cursor's second word, and reading may go on from
   the cursor. */
#ifndef VCD_H
#define VCD_H

#include <stddef.h>
#include <stdint.h>

#ifdef __cplusplus
extern "C" {
#endif

/* Words of the arrays. Tables of records, rows and changes take as many as fit; words over are not used. */
#define VCD_CURSOR 4
#define VCD_WRITER 3
#define VCD_SINCE 2
#define VCD_HEAD 10
#define VCD_RECORD 9
#define VCD_ROW 10
#define VCD_CHANGE 6

/* A cursor at the start of an input, a fresh writer, and no time: uint64_t cursor[VCD_CURSOR] = VCD_CURSOR_START; */
#define VCD_CURSOR_START {0, 1, 0, 0}
#define VCD_WRITER_START {0, 0, 0}
#define VCD_SINCE_START {0, 0}

/* No row, no parent, no id. */
#define VCD_NONE (~(uint64_t)0)

/* A header has no more rows and no deeper scopes than these. */
#define VCD_MOST_ROWS 4096
#define VCD_MOST_SCOPES 64

/* The longest text of an id. */
#define VCD_ID_TEXT 10

/* The words of a cursor, a writer, a time, a record, a head, a header's row and a change. */
#define VCD_CURSOR_PLACE 0
#define VCD_CURSOR_LINE 1
#define VCD_CURSOR_PENDING 2
#define VCD_CURSOR_OPEN 3

#define VCD_WRITER_DEPTH 0
#define VCD_WRITER_NEXT 1
#define VCD_WRITER_OPEN 2

#define VCD_SINCE_TIMED 0
#define VCD_SINCE_TIME 1

#define VCD_RECORD_KIND 0
#define VCD_RECORD_TYPE 1
#define VCD_RECORD_NUMBER 2
#define VCD_RECORD_ID 3
#define VCD_RECORD_START 4
#define VCD_RECORD_LEN 5
#define VCD_RECORD_FORM 6
#define VCD_RECORD_FIRST 7
#define VCD_RECORD_SECOND 8

#define VCD_HEAD_COUNT 0
#define VCD_HEAD_DATE 1
#define VCD_HEAD_VERSION 4
#define VCD_HEAD_TIMESCALE 7

#define VCD_ROW_KIND 0
#define VCD_ROW_PARENT 1
#define VCD_ROW_TYPE 2
#define VCD_ROW_WIDTH 3
#define VCD_ROW_ID 4
#define VCD_ROW_START 5
#define VCD_ROW_LEN 6
#define VCD_ROW_FORM 7
#define VCD_ROW_FIRST 8
#define VCD_ROW_SECOND 9

#define VCD_CHANGE_TIMED 0
#define VCD_CHANGE_TIME 1
#define VCD_CHANGE_LINE 2
#define VCD_CHANGE_KIND 3
#define VCD_CHANGE_START 4
#define VCD_CHANGE_LEN 5

/* Kinds of records, of a header's rows and of changes; forms of an index. */
#define VCD_KIND_COMMENT 1
#define VCD_KIND_DATE 2
#define VCD_KIND_VERSION 3
#define VCD_KIND_TIMESCALE 4
#define VCD_KIND_SCOPE 5
#define VCD_KIND_UPSCOPE 6
#define VCD_KIND_VAR 7
#define VCD_KIND_ENDDEFINITIONS 8
#define VCD_KIND_TIME 9
#define VCD_KIND_SCALAR 10
#define VCD_KIND_VECTOR 11
#define VCD_KIND_REAL 12
#define VCD_KIND_STRING 13
#define VCD_KIND_BEGIN 14
#define VCD_KIND_END 15

#define VCD_ITEM_SCOPE 1
#define VCD_ITEM_VAR 2
#define VCD_ITEM_COMMENT 3

#define VCD_LISTED_SCALAR 1
#define VCD_LISTED_VECTOR 2
#define VCD_LISTED_REAL 3
#define VCD_LISTED_STRING 4

#define VCD_INDEX_NONE 0
#define VCD_INDEX_BIT 1
#define VCD_INDEX_RANGE 2

/* Types: units, scopes, variables, values, simulation commands. An open simulation command in a state is one more than its type. */
#define VCD_UNIT_S 0
#define VCD_UNIT_MS 1
#define VCD_UNIT_US 2
#define VCD_UNIT_NS 3
#define VCD_UNIT_PS 4
#define VCD_UNIT_FS 5

#define VCD_SCOPE_MODULE 0
#define VCD_SCOPE_TASK 1
#define VCD_SCOPE_FUNCTION 2
#define VCD_SCOPE_BEGIN 3
#define VCD_SCOPE_FORK 4

#define VCD_VAR_EVENT 0
#define VCD_VAR_INTEGER 1
#define VCD_VAR_PARAMETER 2
#define VCD_VAR_REAL 3
#define VCD_VAR_REG 4
#define VCD_VAR_SUPPLY0 5
#define VCD_VAR_SUPPLY1 6
#define VCD_VAR_TIME 7
#define VCD_VAR_TRI 8
#define VCD_VAR_TRIAND 9
#define VCD_VAR_TRIOR 10
#define VCD_VAR_TRIREG 11
#define VCD_VAR_TRI0 12
#define VCD_VAR_TRI1 13
#define VCD_VAR_WAND 14
#define VCD_VAR_WIRE 15
#define VCD_VAR_WOR 16
#define VCD_VAR_STRING 17

#define VCD_VALUE_0 0
#define VCD_VALUE_1 1
#define VCD_VALUE_X 2
#define VCD_VALUE_Z 3

#define VCD_SIM_DUMPALL 0
#define VCD_SIM_DUMPOFF 1
#define VCD_SIM_DUMPON 2
#define VCD_SIM_DUMPVARS 3

/* Answers: done, the end of the input, and the refusals (what each means: README.md). */
#define VCD_OK 0
#define VCD_DONE 255
#define VCD_UNEXPECTED_EOF 1
#define VCD_INVALID_UTF8 2
#define VCD_UNEXPECTED_CHARACTER 3
#define VCD_TOKEN_TOO_LONG 4
#define VCD_EXPECTED_END_COMMAND 5
#define VCD_UNMATCHED_END 6
#define VCD_UNKNOWN_COMMAND 7
#define VCD_UNEXPECTED_HEADER_COMMAND 8
#define VCD_PARSE_INT_ERROR 9
#define VCD_PARSE_FLOAT_ERROR 10
#define VCD_INVALID_TIMESCALE_UNIT 11
#define VCD_INVALID_SCOPE_TYPE 12
#define VCD_INVALID_VAR_TYPE 13
#define VCD_INVALID_REFERENCE_INDEX 14
#define VCD_INVALID_VALUE_CHAR 15
#define VCD_ID_EMPTY 16
#define VCD_ID_INVALID_CHARS 17
#define VCD_ID_TOO_LONG 18
#define VCD_TOO_DEEP 19
#define VCD_TABLE_FULL 20
#define VCD_NO_ROOM 21
#define VCD_NOT_WRITABLE 22
#define VCD_BAD_TABLE 23
#define VCD_LIST_FULL 24
#define VCD_BAD_PLACE 25

/* Reads one command. VCD_OK: the record holds it, and the cursor stands behind it. VCD_DONE: only blanks were left. VCD_DONE and
   reading refusals move the cursor and leave the record. VCD_BAD_PLACE, of a cursor outside too: nothing changed. */
uint64_t vcd_next(const uint8_t *input, size_t input_len, uint64_t *cursor, size_t cursor_len, uint64_t *record, size_t record_len);

/* Reads commands until the records are full. VCD_OK: they are, and there may be more. VCD_DONE and reading refusals: behind the
   commands counted. The cursor stands behind what was read, the records counted are written, the words behind them unchanged.
   VCD_BAD_PLACE of a cursor outside: the count is 0. */
uint64_t vcd_read(const uint8_t *input, size_t input_len, uint64_t *cursor, size_t cursor_len, uint64_t *records, size_t records_len,
                  uint64_t *count);

/* Reads a header up to its $enddefinitions. Refused by the reading refusals, 8, 19 and 20, all with the line in the cursor. Refused or
   not: the head holds the count of rows and what was kept so far, the rows counted are written, the words behind them unchanged, and
   the cursor stands behind what was read. VCD_BAD_PLACE of a cursor outside: the head is all 0. */
uint64_t vcd_header(const uint8_t *input, size_t input_len, uint64_t *cursor, size_t cursor_len, uint64_t *rows, size_t rows_len,
                    uint64_t *head, size_t head_len);

/* Copies row i of a header's table into `row`. VCD_BAD_PLACE: there is no row i, or its words are no row; `row` is unchanged. */
uint64_t vcd_row(const uint64_t *rows, size_t rows_len, size_t i, uint64_t *row, size_t row_len);

/* The first row of the scope, or variable, at a path of names parted by one space, among the first `count` rows. VCD_OK: `row` is its
   number, VCD_NONE where there is none. VCD_BAD_PLACE, where one of these rows has a text outside the input, or the input is over
   4,294,967,295 bytes: `row` is unchanged. */
uint64_t vcd_find_scope(const uint8_t *input, size_t input_len, const uint64_t *rows, size_t rows_len, size_t count, const uint8_t *path,
                        size_t path_len, uint64_t *row);
uint64_t vcd_find_var(const uint8_t *input, size_t input_len, const uint64_t *rows, size_t rows_len, size_t count, const uint8_t *path,
                      size_t path_len, uint64_t *row);

/* Writes the command of one record, whose text stands in `src`, at the start of the output. VCD_OK: `count` bytes are written, the
   others unchanged, and the writer is the state after it. VCD_BAD_PLACE (also of a text outside `src`), then VCD_NOT_WRITABLE, then
   VCD_NO_ROOM: nothing changed. */
uint64_t vcd_command(uint64_t *writer, size_t writer_len, const uint8_t *src, size_t src_len, const uint64_t *record, size_t record_len,
                     uint8_t *out, size_t out_len, uint64_t *count);

/* Writes a header: what the head keeps and as many rows as it counts, whose texts stand in `src`. VCD_BAD_PLACE of a text outside `src`
   and VCD_BAD_TABLE: nothing is written, the count is 0. VCD_NOT_WRITABLE and VCD_NO_ROOM stop it: the commands before stay, and are in
   count and writer. Bytes behind the count are unchanged. */
uint64_t vcd_write_header(uint64_t *writer, size_t writer_len, const uint8_t *src, size_t src_len, const uint64_t *head, size_t head_len,
                          const uint64_t *rows, size_t rows_len, uint8_t *out, size_t out_len, uint64_t *count);

/* Reads and writes anew from the cursor on. VCD_OK: up to the end of the input. VCD_NO_ROOM: the cursor stands before the command that
   found none; take the `count` bytes out and call again (where they are 0, lend more). VCD_NOT_WRITABLE: the cursor stands before that
   command. Reading refusals: behind it. In all these, count, cursor and writer tell what was done, bytes behind the count are
   unchanged, and `line` is the reader's line behind the refused command (unchanged with VCD_OK). VCD_BAD_PLACE of a cursor outside: the
   count is 0, `line` the cursor's. */
uint64_t vcd_rewrite(const uint8_t *input, size_t input_len, uint64_t *cursor, size_t cursor_len, uint64_t *writer, size_t writer_len,
                     uint8_t *out, size_t out_len, uint64_t *count, uint64_t *line);

/* Lists the changes of one id code from the cursor on. VCD_OK: up to the end of the input. VCD_LIST_FULL: the cursor stands before the
   change that found no row; vcd_list_on goes on from there with the time. Reading refusals: behind it. In all these the rows counted are
   written, the words behind them unchanged. VCD_BAD_PLACE of a cursor outside: the count is 0. */
uint64_t vcd_list(const uint8_t *input, size_t input_len, uint64_t *cursor, size_t cursor_len, uint64_t code, uint64_t *rows,
                  size_t rows_len, uint64_t *count);

/* The same from where a listing stopped. `since` is the last time before the cursor: VCD_SINCE_START where there was none, and after
   VCD_LIST_FULL what the call before left there. It is then the last time that was read, or as it was where none was read: with
   VCD_LIST_FULL the last one before the change that found no row, else the last one at all. Pages so listed, joined, are the one
   listing with room for all. VCD_BAD_PLACE of a cursor outside: the count is 0, `since` unchanged. */
uint64_t vcd_list_on(const uint8_t *input, size_t input_len, uint64_t *cursor, size_t cursor_len, uint64_t *since, size_t since_len,
                     uint64_t code, uint64_t *rows, size_t rows_len, uint64_t *count);

/* Copies row i of a listing into `change`. VCD_BAD_PLACE: there is no row i, or its words are no row; `change` is unchanged. */
uint64_t vcd_change(const uint64_t *rows, size_t rows_len, size_t i, uint64_t *change, size_t change_len);

/* Writes the vector at a place of the input in lower case, filled with 0 at its left to the width; longer vectors, and widths above
   1,024, get no fill. VCD_BAD_PLACE of a text outside, then VCD_INVALID_VALUE_CHAR (an empty vector too), then VCD_NO_ROOM: nothing
   changed. */
uint64_t vcd_widen(const uint8_t *input, size_t input_len, size_t start, size_t len, uint32_t width, uint8_t *out, size_t out_len,
                   uint64_t *count);

/* Writes the text of an id code, of 1 to VCD_ID_TEXT bytes. VCD_NOT_WRITABLE of VCD_NONE, VCD_NO_ROOM: nothing changed. */
uint64_t vcd_id_text(uint64_t code, uint8_t *out, size_t out_len, uint64_t *count);

/* The id code of a text. VCD_ID_EMPTY, VCD_ID_INVALID_CHARS, VCD_ID_TOO_LONG: the code is unchanged. */
uint64_t vcd_id_code(const uint8_t *text, size_t text_len, uint64_t *code);

#ifdef __cplusplus
}
#endif

#endif
