/*
 * The calls on the link sheet, from C: the sample hubs p2, p3, p10 and p11 of document 01, the round trip, and every refusal of these calls, each of
 * which must leave the lent memory, and the memory around it, as it was. The last line is 'N passed, M failed'.
 */
#include "derowlas.h"
#include "expect.h"

#include <string.h>

/* ---- the answers are laid out as the header says */

_Static_assert(sizeof(struct derowlas_reading) == 12, "number, boxes, links");
_Static_assert(sizeof(struct derowlas_written) == 8, "number, length");
_Static_assert(sizeof(struct derowlas_allowed) == 8, "number, identities");
_Static_assert(DEROWLAS_SHEET_BYTES == 4 + 2 * DEROWLAS_LINKS, "the longest sheet");

/* ---- lent memory, with junk in it and around it */

enum { AROUND = 8, MOST_WORDS = 40, MOST_BYTES = 260 };

static uint16_t words[AROUND + MOST_WORDS + AROUND];
static uint8_t bytes[AROUND + MOST_BYTES + AROUND];

static uint16_t junk_word(size_t i) { return (uint16_t)(0xa5c3u ^ (i * 0x1021u)); }
static uint8_t junk_byte(size_t i) { return (uint8_t)(0x5au ^ (i * 0x1du)); }

static uint16_t *lent_words(void) {
  for (size_t i = 0; i < sizeof words / sizeof *words; i++)
    words[i] = junk_word(i);
  return words + AROUND;
}

static uint8_t *lent_bytes(void) {
  for (size_t i = 0; i < sizeof bytes; i++)
    bytes[i] = junk_byte(i);
  return bytes + AROUND;
}

/* All but the first n lent words, those around them included, are still junk. */
static bool words_stay(size_t n) {
  for (size_t i = 0; i < sizeof words / sizeof *words; i++)
    if ((i < AROUND || AROUND + n <= i) && words[i] != junk_word(i))
      return false;
  return true;
}

static bool bytes_stay(size_t n) {
  for (size_t i = 0; i < sizeof bytes; i++)
    if ((i < AROUND || AROUND + n <= i) && bytes[i] != junk_byte(i))
      return false;
  return true;
}

/* ---- the calls, on lent memory */

static struct derowlas_reading read_sheet(const uint8_t *sheet, size_t len) {
  return derowlas_read(sheet, len, lent_words(), DEROWLAS_TABLE_WORDS);
}

static bool read_refused(const uint8_t *sheet, size_t len, size_t table_len, uint32_t number) {
  struct derowlas_reading r = derowlas_read(sheet, len, lent_words(), table_len);
  return r.number == number && r.boxes == 0 && r.links == 0 && words_stay(0);
}

/* Reading, and the allowance, refuse the sheet with this number. */
static bool sheet_refused(const uint8_t *sheet, size_t len, uint32_t number) {
  struct derowlas_allowed a = derowlas_allowance(sheet, len);
  return read_refused(sheet, len, DEROWLAS_TABLE_WORDS, number) && a.number == number && a.identities == 0;
}

static bool write_refused(uint32_t boxes, const uint16_t *table, size_t table_len, size_t buffer_len, uint32_t number) {
  struct derowlas_written w = derowlas_write(boxes, table, table_len, lent_bytes(), buffer_len);
  return w.number == number && w.length == 0 && bytes_stay(0);
}

static bool allowed(const uint8_t *sheet, size_t len, uint32_t identities) {
  struct derowlas_allowed a = derowlas_allowance(sheet, len);
  return a.number == DEROWLAS_ACCEPTED && a.identities == identities;
}

#define REFUSED(number, ...) EXPECT(sheet_refused((const uint8_t[]){__VA_ARGS__}, sizeof((const uint8_t[]){__VA_ARGS__}), number))

/* Every pair of 16 boxes. */
static size_t mesh(uint8_t *sheet) {
  size_t k = 0;
  for (uint8_t i = 0; i < DEROWLAS_BOXES; i++)
    for (uint8_t j = i + 1; j < DEROWLAS_BOXES; j++) {
      sheet[k++] = i;
      sheet[k++] = j;
    }
  memcpy(sheet + k, (const uint8_t[]){DEROWLAS_SHEET_BYTES, DEROWLAS_LINKS, DEROWLAS_BOXES, 1}, 4);
  return k + 4;
}

/* ---- document 01, "Sample hubs" */

/* (p2) Link 0-1: allowance 6. */
static void p2(void) {
  const uint8_t sheet[] = {0, 1, 6, 1, 2, 1};
  const uint16_t table[DEROWLAS_TABLE_WORDS] = {2, 1};
  struct derowlas_reading r = read_sheet(sheet, sizeof sheet);
  EXPECT(r.number == DEROWLAS_ACCEPTED && r.boxes == 2 && r.links == 1);
  EXPECT(memcmp(words + AROUND, table, sizeof table) == 0 && words_stay(DEROWLAS_TABLE_WORDS));
  EXPECT(allowed(sheet, sizeof sheet, 6));
}

/* (p3) Line 0-1-2: allowance 20. */
static void p3(void) {
  const uint8_t sheet[] = {0, 1, 1, 2, 8, 2, 3, 1};
  const uint16_t table[DEROWLAS_TABLE_WORDS] = {2, 5, 2};
  struct derowlas_reading r = read_sheet(sheet, sizeof sheet);
  EXPECT(r.number == DEROWLAS_ACCEPTED && r.boxes == 3 && r.links == 2);
  EXPECT(memcmp(words + AROUND, table, sizeof table) == 0 && words_stay(DEROWLAS_TABLE_WORDS));
  EXPECT(allowed(sheet, sizeof sheet, 20));
}

/* (p10) Sheet bytes 0 1 0 1, trailer 8 2 2 1: refusal 8. Trailer 9 2 2 1: refusal 5. */
static void p10(void) {
  REFUSED(DEROWLAS_REFUSED_PAIR_ORDER, 0, 1, 0, 1, 8, 2, 2, 1);
  REFUSED(DEROWLAS_REFUSED_BACK, 0, 1, 0, 1, 9, 2, 2, 1);
}

/* (p11) N 16 accepted, 17 refused 3. P 120 with N 16 accepted, P 121 refused 4. */
static void p11(void) {
  const uint8_t sixteen[] = {4, 0, 16, 1};
  struct derowlas_reading r = read_sheet(sixteen, sizeof sixteen);
  EXPECT(r.number == DEROWLAS_ACCEPTED && r.boxes == 16 && r.links == 0);
  EXPECT(allowed(sixteen, sizeof sixteen, 0));
  REFUSED(DEROWLAS_REFUSED_BOXES, 4, 0, 17, 1);

  uint8_t sheet[2 + DEROWLAS_SHEET_BYTES] = {0, 0};
  size_t len = mesh(sheet + 2);
  EXPECT(len == DEROWLAS_SHEET_BYTES);
  r = read_sheet(sheet + 2, len);
  EXPECT(r.number == DEROWLAS_ACCEPTED && r.boxes == 16 && r.links == 120);
  for (size_t k = 0; k < DEROWLAS_BOXES; k++)
    EXPECT(words[AROUND + k] == (0xffff ^ 1u << k));
  EXPECT(words_stay(DEROWLAS_TABLE_WORDS));
  EXPECT(allowed(sheet + 2, len, 240 * 31));

  sheet[len - 2] = 246; /* B, P of 121 pairs */
  sheet[len - 1] = 121;
  EXPECT(sheet_refused(sheet, 2 + len, DEROWLAS_REFUSED_LINKS));
}

/* ---- document 01, "The link sheet": the round trip */

/* Writing a read sheet gives its last `back` bytes, and reading those gives the table back. */
static void round_trip(const uint8_t *sheet, size_t len, size_t back) {
  uint16_t table[DEROWLAS_TABLE_WORDS];
  struct derowlas_reading r = derowlas_read(sheet, len, table, DEROWLAS_TABLE_WORDS);
  EXPECT(r.number == DEROWLAS_ACCEPTED && 4 + 2 * r.links == back);
  struct derowlas_written w = derowlas_write(r.boxes, table, DEROWLAS_TABLE_WORDS, lent_bytes(), MOST_BYTES);
  EXPECT(w.number == DEROWLAS_ACCEPTED && w.length == back);
  EXPECT(memcmp(bytes + AROUND, sheet + len - back, back) == 0 && bytes_stay(back));
  struct derowlas_reading again = read_sheet(bytes + AROUND, w.length);
  EXPECT(again.number == DEROWLAS_ACCEPTED && again.boxes == r.boxes && again.links == r.links);
  EXPECT(memcmp(words + AROUND, table, sizeof table) == 0 && words_stay(DEROWLAS_TABLE_WORDS));
  /* The smallest buffer that does, and one byte less. */
  w = derowlas_write(r.boxes, table, DEROWLAS_TABLE_WORDS, lent_bytes(), back);
  EXPECT(w.number == DEROWLAS_ACCEPTED && w.length == back && bytes_stay(back));
  EXPECT(write_refused(r.boxes, table, DEROWLAS_TABLE_WORDS, back - 1, DEROWLAS_REFUSED_BUFFER));
}

static void round_trips(void) {
  const uint8_t alone[] = {4, 0, 1, 1};
  const uint8_t line[] = {0, 1, 1, 2, 8, 2, 3, 1};
  const uint8_t others_before[] = {9, 9, 9, 0, 1, 0, 2, 1, 3, 2, 3, 12, 4, 4, 1};
  uint8_t full[DEROWLAS_SHEET_BYTES];
  round_trip(alone, sizeof alone, 4);
  round_trip(line, sizeof line, 8);
  round_trip(others_before, sizeof others_before, 12);
  round_trip(full, mesh(full), DEROWLAS_SHEET_BYTES);
}

/* ---- document 01, "Numbers given when the hub refuses" */

static void reading_refused(void) {
  const uint8_t line[] = {0, 1, 1, 2, 8, 2, 3, 1};
  for (size_t len = 0; len < 4; len++)
    EXPECT(sheet_refused(line, len, DEROWLAS_REFUSED_SHORT_SHEET));
  REFUSED(DEROWLAS_REFUSED_VERSION, 0, 1, 1, 2, 8, 2, 3, 2);
  REFUSED(DEROWLAS_REFUSED_BOXES, 0, 1, 1, 2, 8, 2, 0, 1);
  REFUSED(DEROWLAS_REFUSED_LINKS, 0, 1, 1, 2, 8, 121, 3, 1);
  REFUSED(DEROWLAS_REFUSED_BACK, 0, 1, 1, 2, 8, 3, 3, 1);
  REFUSED(DEROWLAS_REFUSED_BACK, 1, 1, 2, 8, 2, 3, 1); /* beyond the file's start */
  REFUSED(DEROWLAS_REFUSED_PAIR_BOX, 0, 1, 1, 3, 8, 2, 3, 1);
  REFUSED(DEROWLAS_REFUSED_PAIR_BOX, 0, 1, 3, 1, 8, 2, 3, 1);
  REFUSED(DEROWLAS_REFUSED_PAIR_TURNED, 0, 1, 2, 1, 8, 2, 3, 1);
  REFUSED(DEROWLAS_REFUSED_PAIR_TURNED, 0, 1, 1, 1, 8, 2, 3, 1);
  REFUSED(DEROWLAS_REFUSED_PAIR_ORDER, 1, 2, 0, 1, 8, 2, 3, 1);
  REFUSED(DEROWLAS_REFUSED_PAIR_ORDER, 0, 2, 0, 1, 8, 2, 3, 1);
  /* The order is the table's: version before N, a pair's own number before a later pair's, the sheet before the table. */
  REFUSED(DEROWLAS_REFUSED_VERSION, 0, 1, 1, 2, 9, 121, 0, 0);
  REFUSED(DEROWLAS_REFUSED_PAIR_TURNED, 1, 0, 1, 3, 8, 2, 3, 1);
  for (size_t table_len = 0; table_len <= MOST_WORDS; table_len++)
    if (table_len != DEROWLAS_TABLE_WORDS) {
      EXPECT(read_refused(line, sizeof line, table_len, DEROWLAS_REFUSED_ROOM));
      EXPECT(read_refused(line, 3, table_len, DEROWLAS_REFUSED_SHORT_SHEET));
    }
}

static void writing_refused(void) {
  const uint16_t line[MOST_WORDS] = {2, 5, 2};
  const uint16_t one_way[DEROWLAS_TABLE_WORDS] = {2, 5, 0};
  const uint16_t itself[DEROWLAS_TABLE_WORDS] = {3, 5, 2};
  EXPECT(write_refused(0, line, 16, MOST_BYTES, DEROWLAS_REFUSED_BOXES));
  EXPECT(write_refused(17, line, 16, MOST_BYTES, DEROWLAS_REFUSED_BOXES));
  EXPECT(write_refused(UINT32_MAX, line, 16, MOST_BYTES, DEROWLAS_REFUSED_BOXES));
  EXPECT(write_refused(3, one_way, 16, MOST_BYTES, DEROWLAS_REFUSED_TABLE));
  EXPECT(write_refused(3, itself, 16, MOST_BYTES, DEROWLAS_REFUSED_TABLE));
  EXPECT(write_refused(2, line, 16, MOST_BYTES, DEROWLAS_REFUSED_TABLE)); /* names box 2 */
  for (size_t table_len = 0; table_len <= MOST_WORDS; table_len++)
    if (table_len != DEROWLAS_TABLE_WORDS)
      EXPECT(write_refused(3, line, table_len, MOST_BYTES, DEROWLAS_REFUSED_TABLE));
  for (size_t buffer_len = 0; buffer_len < 8; buffer_len++)
    EXPECT(write_refused(3, line, 16, buffer_len, DEROWLAS_REFUSED_BUFFER));
  /* "Writing tests 3, 14, 15", in this order. */
  EXPECT(write_refused(0, one_way, 15, 0, DEROWLAS_REFUSED_BOXES));
  EXPECT(write_refused(3, one_way, 16, 0, DEROWLAS_REFUSED_TABLE));
}

int main(void) {
  p2();
  p3();
  p10();
  p11();
  round_trips();
  reading_refused();
  writing_refused();
  return expected();
}
