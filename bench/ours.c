// `ours MODE FILE TURNS [ID [SIZE...]]`: the library over a file that is in memory, with the words and answers of crate_bench (bench/crate);
// beside its modes `next`, which reads as `read` does but by one call a command, `changes`, which lists as `list` does but reads no
// header first, and `turns`, which rewrites as `commands` does but into the same 64 KB again and again. With sizes the file is taken as many dumps of so many bytes, one after the other, cut behind a newline. `ours
// reformat` rewrites standard input to standard output.
#include <fcntl.h>
#include <stdint.h>
#include <stdio.h>
#include <stdlib.h>
#include <string.h>
#include <sys/mman.h>
#include <sys/stat.h>
#include <time.h>
#include <unistd.h>

#include "vcd.h"

// Records read a call; bytes written a call by `reformat`; bytes that a row's command has at least (`$comment $end`); sizes in a call.
enum { RECORDS = 256, ROOM = 65536, ROW_BYTES = 13, MOST_SIZES = 8 };

// A dump, the code to list, and what is lent to the calls. Nothing lent is cleared between turns.
struct dump {
  uint8_t *bytes;
  size_t len;
  uint64_t *table;
  size_t table_len;
  uint64_t code;
  uint64_t *changes;
  size_t changes_len;
  uint8_t *out;
  size_t room;
};

struct found {
  uint64_t count, sum;
};

static uint64_t head[VCD_HEAD];

static void die(const char *what) {
  fprintf(stderr, "ours: %s\n", what);
  exit(1);
}

static void expect(const char *call, uint64_t wanted, uint64_t status) {
  if (status == wanted) return;
  fprintf(stderr, "ours: %s answered %llu\n", call, (unsigned long long)status);
  exit(1);
}

static void *memory(size_t size) {
  void *p = malloc(size);
  if (!p) die("no memory");
  return p;
}

static struct found load(struct dump *d) { return (struct found){d->len, 0}; }

// Every command; the sum is of kinds.
static struct found read_all(struct dump *d) {
  uint64_t records[VCD_RECORD * RECORDS], cursor[VCD_CURSOR] = VCD_CURSOR_START, n = 0, status;
  struct found f = {0, 0};
  do {
    status = vcd_read(d->bytes, d->len, cursor, VCD_CURSOR, records, VCD_RECORD * RECORDS, &n);
    for (uint64_t i = 0; i < n; i++) f.sum += records[VCD_RECORD * i + VCD_RECORD_KIND];
    f.count += n;
  } while (status == VCD_OK);
  expect("vcd_read", VCD_DONE, status);
  return f;
}

static struct found next_all(struct dump *d) {
  uint64_t record[VCD_RECORD], cursor[VCD_CURSOR] = VCD_CURSOR_START, status;
  struct found f = {0, 0};
  while ((status = vcd_next(d->bytes, d->len, cursor, VCD_CURSOR, record, VCD_RECORD)) == VCD_OK) {
    f.sum += record[VCD_RECORD_KIND];
    f.count++;
  }
  expect("vcd_next", VCD_DONE, status);
  return f;
}

static void read_header(struct dump *d, uint64_t *cursor) {
  expect("vcd_header", VCD_OK, vcd_header(d->bytes, d->len, cursor, VCD_CURSOR, d->table, d->table_len, head, VCD_HEAD));
}

// Every change of one code from the cursor on; the sum is of times, lines and lengths of values.
static struct found list_from(struct dump *d, uint64_t *cursor) {
  struct found f = {0, 0};
  expect("vcd_list", VCD_OK, vcd_list(d->bytes, d->len, cursor, VCD_CURSOR, d->code, d->changes, d->changes_len, &f.count));
  for (uint64_t i = 0; i < f.count; i++) {
    const uint64_t *change = d->changes + VCD_CHANGE * i;
    f.sum += change[VCD_CHANGE_TIME] + change[VCD_CHANGE_LINE] + change[VCD_CHANGE_LEN];
  }
  return f;
}

static struct found changes(struct dump *d) {
  uint64_t cursor[VCD_CURSOR] = VCD_CURSOR_START;
  return list_from(d, cursor);
}

// The header, then every change of one code.
static struct found list(struct dump *d) {
  uint64_t cursor[VCD_CURSOR] = VCD_CURSOR_START;
  read_header(d, cursor);
  return list_from(d, cursor);
}

// Reads the header and writes it into the memory lent; answers how many bytes.
static uint64_t rewrite_header(struct dump *d, uint64_t *cursor, uint64_t *writer) {
  uint64_t n;
  read_header(d, cursor);
  expect("vcd_write_header", VCD_OK,
         vcd_write_header(writer, VCD_WRITER, d->bytes, d->len, head, VCD_HEAD, d->table, d->table_len, d->out, d->room, &n));
  return n;
}

// Every command written anew into memory, those of the header too.
static struct found commands(struct dump *d) {
  uint64_t cursor[VCD_CURSOR] = VCD_CURSOR_START, writer[VCD_WRITER] = VCD_WRITER_START, n, line;
  expect("vcd_rewrite", VCD_OK,
         vcd_rewrite(d->bytes, d->len, cursor, VCD_CURSOR, writer, VCD_WRITER, d->out, d->room, &n, &line));
  return (struct found){n, 0};
}

// The same in turns, each into the same memory.
static struct found in_turns(struct dump *d) {
  uint64_t cursor[VCD_CURSOR] = VCD_CURSOR_START, writer[VCD_WRITER] = VCD_WRITER_START, n = 0, line, status;
  struct found f = {0, 0};
  do {
    status = vcd_rewrite(d->bytes, d->len, cursor, VCD_CURSOR, writer, VCD_WRITER, d->out, ROOM, &n, &line);
    f.count += n;
  } while (status == VCD_NO_ROOM && n > 0);
  expect("vcd_rewrite", VCD_OK, status);
  return f;
}

// The header through its table, then every command, written anew into memory.
static struct found rewrite(struct dump *d) {
  uint64_t cursor[VCD_CURSOR] = VCD_CURSOR_START, writer[VCD_WRITER] = VCD_WRITER_START, n, line;
  uint64_t used = rewrite_header(d, cursor, writer);
  expect("vcd_rewrite", VCD_OK,
         vcd_rewrite(d->bytes, d->len, cursor, VCD_CURSOR, writer, VCD_WRITER, d->out + used, d->room - used, &n, &line));
  return (struct found){used + n, 0};
}

static void put(const uint8_t *bytes, size_t len) {
  while (len > 0) {
    ssize_t n = write(STDOUT_FILENO, bytes, len);
    if (n < 0) die("cannot write");
    bytes += n;
    len -= n;
  }
}

// The same to standard output, in turns. No command of the dumps is longer than a turn.
static void reformat(struct dump *d) {
  uint64_t cursor[VCD_CURSOR] = VCD_CURSOR_START, writer[VCD_WRITER] = VCD_WRITER_START, n = 0, line, status;
  put(d->out, rewrite_header(d, cursor, writer));
  do {
    status = vcd_rewrite(d->bytes, d->len, cursor, VCD_CURSOR, writer, VCD_WRITER, d->out, ROOM, &n, &line);
    put(d->out, n);
  } while (status == VCD_NO_ROOM && n > 0);
  expect("vcd_rewrite", VCD_OK, status);
}

// As many words as rows the dump could have.
static size_t table_words(size_t len) {
  size_t rows = len / ROW_BYTES + 1;
  return VCD_ROW * (rows < VCD_MOST_ROWS ? rows : VCD_MOST_ROWS);
}

// All bytes of a file that is read.
static void read_whole(int file, size_t size, struct dump *d) {
  ssize_t n;
  d->bytes = memory(size);
  while ((n = read(file, d->bytes + d->len, size - d->len)) > 0) {
    d->len += n;
    if (d->len == size && !(d->bytes = realloc(d->bytes, size *= 2))) die("no memory");
  }
  if (n < 0) die("cannot read");
}

// The whole of a file. Twice its size is lent for writing, and for listing as many rows as it could have changes, of three bytes at
// least: the system gives only the pages that are used.
static struct dump whole(int file) {
  struct dump d = {0};
  struct stat s;
  read_whole(file, fstat(file, &s) == 0 && s.st_size >= ROOM ? s.st_size + 1 : ROOM, &d);
  d.table_len = table_words(d.len);
  d.table = memory(sizeof(uint64_t) * d.table_len);
  d.room = 2 * d.len + ROOM;
  d.out = memory(d.room);
  d.changes_len = VCD_CHANGE * (d.len / 3 + 1);
  d.changes = memory(sizeof(uint64_t) * d.changes_len);
  return d;
}

static void *mapped(size_t size, int access, int flags, int file) {
  void *p = mmap(NULL, size, access, MAP_PRIVATE | flags, file, 0);
  if (p == MAP_FAILED) die("no memory");
  return p;
}

// What `reformat` works on. A file is not copied; its header is no longer when written anew than twice its length and a turn's room.
// Pages that will be used are asked for at once, where the system can: one given when it is first touched takes longer.
static struct dump program(int file) {
  const int both = PROT_READ | PROT_WRITE;
  struct dump d = {0};
  struct stat s;
  if (fstat(file, &s) == 0 && S_ISREG(s.st_mode) && s.st_size > 0) {
    d.len = s.st_size;
    d.bytes = mapped(d.len, PROT_READ, MAP_POPULATE, file);
  } else {
    read_whole(file, ROOM, &d);
  }
  d.table_len = table_words(d.len);
  d.table = mapped(sizeof(uint64_t) * d.table_len, both, MAP_ANONYMOUS | MAP_POPULATE, -1);
  d.room = 2 * d.len + ROOM;
  d.out = mapped(d.room, both, MAP_ANONYMOUS, -1);
#ifdef MADV_POPULATE_WRITE
  madvise(d.out, d.len < 4 * ROOM ? d.len : ROOM, MADV_POPULATE_WRITE);
#endif
  return d;
}

static uint64_t nanoseconds(void) {
  struct timespec t;
  if (clock_gettime(CLOCK_PROCESS_CPUTIME_ID, &t) != 0) die("no such clock");
  return (uint64_t)t.tv_sec * 1000000000 + t.tv_nsec;
}

typedef struct found work(struct dump *);

static work *mode_of(const char *name) {
  static const struct {
    const char *name;
    work *does;
  } modes[] = {{"load", load},         {"read", read_all},           {"next", next_all},   {"list", list},     {"changes", changes},
               {"commands", commands}, {"command-bytes", commands}, {"turns", in_turns}, {"rewrite", rewrite}, {"bytes", rewrite}};
  for (size_t i = 0; i < sizeof modes / sizeof *modes; i++)
    if (strcmp(name, modes[i].name) == 0) return modes[i].does;
  die("no such mode");
  return NULL;
}

// The work over dumps of `size` bytes, which are cut behind a newline; the last may be shorter.
static struct found in_parts(work *does, struct dump *d, size_t size) {
  struct dump part = *d;
  struct found sum = {0, 0};
  for (size_t at = 0; at < d->len; at += part.len) {
    part.bytes = d->bytes + at;
    part.len = d->len - at < size ? d->len - at : size;
    while (part.len < d->len - at && part.bytes[part.len - 1] != '\n') part.len++;
    struct found f = does(&part);
    sum.count += f.count;
    sum.sum += f.sum;
  }
  return sum;
}

// The best of so many turns for each size, a line each; the sizes by turns, so that a busy while of the machine falls on all.
static void measure(work *does, struct dump *d, int turns, const size_t *sizes, int count, int written) {
  struct found f = {0, 0};
  uint64_t best[MOST_SIZES];
  for (int i = 0; i < turns * count; i++) {
    uint64_t start = nanoseconds();
    f = in_parts(does, d, sizes[i % count]);
    uint64_t took = nanoseconds() - start;
    if (i < count || took < best[i % count]) best[i % count] = took;
  }
  if (written) {
    put(d->out, f.count);
    return;
  }
  for (int i = 0; i < count; i++)
    printf("%llu %llu %llu\n", (unsigned long long)f.count, (unsigned long long)f.sum, (unsigned long long)best[i]);
}

int main(int argc, char **argv) {
  if (argc == 2 && strcmp(argv[1], "reformat") == 0) {
    struct dump d = program(STDIN_FILENO);
    reformat(&d);
    return 0;
  }
  if (argc < 4) die("usage: ours MODE FILE TURNS [ID [SIZE...]], or ours reformat");
  int file = open(argv[2], O_RDONLY);
  if (file < 0) die("cannot open the file");
  struct dump d = whole(file);
  if (argc > 4) expect("vcd_id_code", VCD_OK, vcd_id_code((const uint8_t *)argv[4], strlen(argv[4]), &d.code));
  size_t sizes[MOST_SIZES] = {d.len};
  int count = argc > 5 ? argc - 5 : 1;
  if (count > MOST_SIZES) die("too many sizes");
  for (int i = 5; i < argc; i++) sizes[i - 5] = strtoull(argv[i], NULL, 10);
  measure(mode_of(argv[1]), &d, atoi(argv[3]), sizes, count, strstr(argv[1], "bytes") != NULL);
  return 0;
}
