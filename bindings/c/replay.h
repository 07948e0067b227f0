/* What the parts of the driver share: texts, the canonical form of docs/ORACLE.md on standard output, and marks on lent arrays. */
#ifndef REPLAY_H
#define REPLAY_H

#include "vcd.h"

typedef struct {
    const uint8_t *at;
    size_t len;
} bytes;

/* Takes a line off the front, without its LF. */
bytes take_line(bytes *rest);
/* The k-th word of a line, words being parted by one space; empty where there is none. */
bytes word_at(bytes line, int k);
uint64_t number_in(bytes word);

void put_bytes(bytes text);
/* A space and the number. */
void put_number(uint64_t number);
/* A space and the text in the form of docs/ORACLE.md. */
void put_text(bytes text);
/* A command, without line and place. */
void put_record(bytes input, const uint64_t *record);
/* A header's row without its parent. */
void put_row(bytes input, const uint64_t *row);
void put_timescale(uint64_t quantity, uint64_t unit);
/* A space and the open simulation command of a state. */
void put_open(uint64_t open);
/* The line that the listing and rewriting programs end with. */
void put_refused_at(uint64_t number, uint64_t line);
const char *scope_name(uint64_t type);
const char *var_name(uint64_t type);

bytes text_of(bytes input, uint64_t start, uint64_t len);

/* Arrays are filled before they are lent, and `spoilt` is printed where a word or byte changed that may not. */
void mark_words(uint64_t *words, size_t len);
void mark_bytes(uint8_t *at, size_t len);
void check_words(const uint64_t *words, size_t from, size_t len);
void check_bytes(const uint8_t *at, size_t from, size_t len);
void check(int holds);

/* The answers to one case. */
void answer_read_next(bytes dump);
void answer_read_table(bytes dump);
void answer_header(bytes given);
void answer_write(bytes script);
void answer_list(bytes dump);
void answer_reformat_rewrite(bytes dump);
void answer_reformat_command(bytes dump);

/* The answers to a whole input that is no stream of cases. */
void answer_find(bytes input);
void answer_ids(bytes lines);

#endif
