/* driver KIND [WAY] < cases: answers recorded cases (docs/ORACLE.md) through the exported functions alone, in the canonical form. KIND
   and WAY are one of the list below; the stored answers stand in crates/replay_KIND/stdout, crates/find_tests/stdout, and for ids in
   the lines `code` and `id` of crates/unit_tests/stdout, which are its input too. */
#include "replay.h"

#include <stdio.h>
#include <stdlib.h>
#include <string.h>

typedef struct {
    const char *name;
    /* The first for a stream of cases, the second for any other input. */
    void (*answer_case)(bytes);
    void (*answer_whole)(bytes);
} kind;

static const kind KINDS[] = {
    {"read next", answer_read_next, NULL},
    {"read table", answer_read_table, NULL},
    {"header", answer_header, NULL},
    {"write", answer_write, NULL},
    {"list", answer_list, NULL},
    {"reformat rewrite", answer_reformat_rewrite, NULL},
    {"reformat command", answer_reformat_command, NULL},
    {"find", NULL, answer_find},
    {"ids", NULL, answer_ids},
};

static uint8_t *resized(uint8_t *old, size_t len) {
    uint8_t *new = realloc(old, len);
    if (new == NULL) {
        fputs("driver: no memory\n", stderr);
        exit(2);
    }
    return new;
}

static bytes read_all(FILE *from) {
    size_t room = 1 << 16, len = 0, got;
    uint8_t *all = resized(NULL, room);
    while ((got = fread(all + len, 1, room - len, from)) > 0) {
        len += got;
        if (len == room) {
            room *= 2;
            all = resized(all, room);
        }
    }
    return (bytes){all, len};
}

/* Answers a copy that has no byte to spare, so that memory checkers see a read past its end. */
static void answer_copy(const uint8_t *at, size_t len, void (*answer)(bytes)) {
    uint8_t *copy = resized(NULL, len > 0 ? len : 1);
    memcpy(copy, at, len);
    answer((bytes){copy, len});
    free(copy);
}

/* A case is its length in decimal, LF, so many bytes, LF. */
static void answer_cases(bytes rest, void (*answer)(bytes)) {
    for (unsigned long number = 0; rest.len > 0; number++) {
        uint64_t len = number_in(take_line(&rest));
        if (rest.len < 1 || len > rest.len - 1) {
            fputs("driver: a case is cut off\n", stderr);
            exit(2);
        }
        printf("case %lu\n", number);
        answer_copy(rest.at, (size_t)len, answer);
        rest.at += len + 1;
        rest.len -= len + 1;
    }
}

int main(int argc, char **argv) {
    char name[64] = "";
    if (argc == 2 || argc == 3) {
        snprintf(name, sizeof(name), argc == 2 ? "%s" : "%s %s", argv[1], argc == 2 ? "" : argv[2]);
    }
    for (size_t i = 0; i < sizeof(KINDS) / sizeof(KINDS[0]); i++) {
        if (strcmp(name, KINDS[i].name) == 0) {
            bytes all = read_all(stdin);
            if (KINDS[i].answer_case != NULL) {
                answer_cases(all, KINDS[i].answer_case);
            } else {
                KINDS[i].answer_whole(all);
            }
            return fflush(stdout) == 0 ? 0 : 2;
        }
    }
    fputs("usage: driver KIND [WAY] < cases\n", stderr);
    return 2;
}
