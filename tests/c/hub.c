/*
 * The run and the drain, from C: the sample hubs of document 01, lines, rings, stars and meshes of 1 to 16 boxes with the counts that document 01 gives,
 * and every refusal but 13, each of which must leave the board as it was. The last line is 'N passed, M failed'.
 *
 * What is lent lies in pieces of memory of just its length, and boards are not filled before a call that is to write them. So valgrind sees a call that
 * goes past an end by a byte, one that asks what was on the board before, and one that leaves a word of it unwritten.
 */
#include "derowlas.h"
#include "expect.h"

#include <stdlib.h>
#include <string.h>

/* ---- the answers are laid out as the header says */

_Static_assert(sizeof(struct derowlas_ran) == 16, "number, sent, moved, under_way");
_Static_assert(sizeof(struct derowlas_drained) == 20, "number, sent, moved, under_way, finished");
_Static_assert(DEROWLAS_BOARD_WORDS == DEROWLAS_BOXES * DEROWLAS_BLOCK_WORDS, "a block for each box");
_Static_assert(DEROWLAS_BUDGET == 2 * DEROWLAS_LINKS * (DEROWLAS_BOXES + 2) + DEROWLAS_BOXES * (DEROWLAS_BOXES - 1), "E(N + 2) + N(N - 1)");

/* ---- lent memory */

/* Words that are lent beyond what the hub needs, and must stay. */
enum { MORE = 5 };

static uint16_t junk(size_t i) { return (uint16_t)(0xa5c3u ^ (i * 0x1021u)); }

/* A piece of memory, and not NULL for no bytes either. */
static void *piece(size_t bytes) {
  void *p = malloc(bytes != 0 ? bytes : 1);
  if (p == NULL)
    abort();
  return p;
}

static uint8_t *copy(const uint8_t *bytes, size_t len) {
  uint8_t *p = piece(len);
  memcpy(p, bytes, len);
  return p;
}

/* A board of `len` words, with junk from the word `from` on. */
static uint16_t *lent(size_t len, size_t from) {
  uint16_t *board = piece(len * sizeof *board);
  for (size_t i = from; i < len; i++)
    board[i] = junk(i);
  return board;
}

static bool stays(const uint16_t *board, size_t len, size_t from) {
  for (size_t i = from; i < len; i++)
    if (board[i] != junk(i))
      return false;
  return true;
}

/* ---- a hub after a call that is accepted */

struct hub {
  uint32_t sent, moved, under_way;
  bool finished;
  uint16_t board[DEROWLAS_BOARD_WORDS];
};

/* Both calls are made with a board of the blocks of n boxes and MORE words, of which the blocks alone may change. */
static struct hub run(size_t n, const uint8_t *sheet, size_t sheet_len, const uint8_t *list, size_t list_len) {
  size_t words = DEROWLAS_BLOCK_WORDS * n;
  uint8_t *own_sheet = copy(sheet, sheet_len), *own_list = copy(list, list_len);
  uint16_t *board = lent(words + MORE, words);
  struct derowlas_ran r = derowlas_run(own_sheet, sheet_len, own_list, list_len, board, words + MORE);
  EXPECT(r.number == DEROWLAS_ACCEPTED && r.sent == r.moved + r.under_way);
  EXPECT(stays(board, words + MORE, words));
  struct hub h = {r.sent, r.moved, r.under_way, r.under_way == 0, {0}};
  memcpy(h.board, board, words * sizeof *board);
  free(board), free(own_list), free(own_sheet);
  return h;
}

static struct hub drain(size_t n, const uint8_t *sheet, size_t sheet_len, uint16_t starts, uint32_t budget) {
  size_t words = DEROWLAS_BLOCK_WORDS * n;
  uint8_t *own_sheet = copy(sheet, sheet_len);
  uint16_t *board = lent(words + MORE, words);
  struct derowlas_drained d = derowlas_drain(own_sheet, sheet_len, starts, budget, board, words + MORE);
  EXPECT(d.number == DEROWLAS_ACCEPTED && d.sent == d.moved + d.under_way);
  EXPECT(d.moved <= budget && d.finished == (d.under_way == 0));
  EXPECT(stays(board, words + MORE, words));
  struct hub h = {d.sent, d.moved, d.under_way, d.finished, {0}};
  memcpy(h.board, board, words * sizeof *board);
  free(board), free(own_sheet);
  return h;
}

/* Document 01, "The tables at rest": state, HOP, and the four tables of 16 words. */
_Static_assert(DEROWLAS_STATE == 0 && DEROWLAS_HOP == 1 && DEROWLAS_NODES == 2, "where a block has its parts");
_Static_assert(DEROWLAS_IN_SPT == 2 + 16 && DEROWLAS_NOT_SPT == 2 + 2 * 16 && DEROWLAS_NEIGHBORS == 2 + 3 * 16, "where a block has its tables");

static uint16_t word(const struct hub *h, size_t box, size_t at) { return h->board[DEROWLAS_BLOCK_WORDS * box + at]; }

static bool stopped(const struct hub *h, size_t box, uint16_t hop) {
  return word(h, box, DEROWLAS_STATE) == DEROWLAS_STOPPED && word(h, box, DEROWLAS_HOP) == hop;
}

/* ---- document 01, "Sample hubs" */

static const uint8_t alone[] = {4, 0, 1, 1};
static const uint8_t link[] = {0, 1, 6, 1, 2, 1};
static const uint8_t line[] = {0, 1, 1, 2, 8, 2, 3, 1};
static const uint8_t triangle[] = {0, 1, 0, 2, 1, 2, 10, 3, 3, 1};
static const uint8_t ring[] = {0, 1, 0, 2, 1, 3, 2, 3, 12, 4, 4, 1};

/* (p1) N 1, no link, box 0 started: stopped, HOP 0, sent 0. */
static void p1(void) {
  const uint8_t start[] = {0, 0};
  struct hub by_list = run(1, alone, sizeof alone, start, sizeof start);
  EXPECT(stopped(&by_list, 0, 0) && by_list.sent == 0);
  struct hub drained = drain(1, alone, sizeof alone, 1, 0);
  EXPECT(stopped(&drained, 0, 0) && drained.sent == 0 && drained.finished);
}

/* (p2) Link 0-1: HOP 3 each, sent 10. */
static void p2(void) {
  struct hub h = drain(2, link, sizeof link, 3, DEROWLAS_BUDGET);
  EXPECT(stopped(&h, 0, 3) && stopped(&h, 1, 3) && h.sent == 10 && h.finished);
}

/* (p3) Line 0-1-2: sent 24. HOP 4, 3, 4. */
static void p3(void) {
  struct hub h = drain(3, line, sizeof line, 7, DEROWLAS_BUDGET);
  EXPECT(stopped(&h, 0, 4) && stopped(&h, 1, 3) && stopped(&h, 2, 4));
  EXPECT(h.sent == 24 && h.finished);
}

/* (p4) The same, block of box 1: Nodes 2, 5; In_SPT(0) 1, (2) 4; Not_SPT(0) 1, (2) 4; Neighbors 2, 5, 2. */
static void p4(void) {
  const uint16_t block[DEROWLAS_BLOCK_WORDS] = {
      [DEROWLAS_STATE] = DEROWLAS_STOPPED, [DEROWLAS_HOP] = 3, /* (p3) */
      [DEROWLAS_NODES] = 2, [DEROWLAS_NODES + 1] = 5, /* at 0 hops, at 1 */
      [DEROWLAS_IN_SPT] = 1, [DEROWLAS_IN_SPT + 2] = 4, /* from 0, from 2 */
      [DEROWLAS_NOT_SPT] = 1, [DEROWLAS_NOT_SPT + 2] = 4, /* of 0, of 2 */
      [DEROWLAS_NEIGHBORS] = 2, [DEROWLAS_NEIGHBORS + 1] = 5, [DEROWLAS_NEIGHBORS + 2] = 2, /* of 0, 1, 2 */
  };
  struct hub h = drain(3, line, sizeof line, 7, DEROWLAS_BUDGET);
  EXPECT(memcmp(h.board + DEROWLAS_BLOCK_WORDS, block, sizeof block) == 0);
}

/*
 * (p5) The same, wire 1 to 0: {1}; {2}; Neighbors(1); {}; Neighbors(2); {}.
 * Box 0 has one link, so that it does a round for each set as it comes, and its block shows what came: round 0 for {1}, and so on.
 */
static void p5(void) {
  const uint8_t wires[][2] = {{0, 1}, {1, 0}, {1, 2}, {2, 1}};
  const uint16_t hop[] = {0, 1, 2, 2, 3, 3, 4};
  const uint16_t heard[] = {0, 2, 6, 6, 6, 6, 6};
  const uint16_t list_1[] = {0, 0, 0, 5, 5, 5, 5};
  const uint16_t list_2[] = {0, 0, 0, 0, 0, 2, 2};
  enum { CAME = 6, SWEEPS = 12 };
  uint8_t list[6 + SWEEPS * sizeof wires] = {0, 0, 1, 1, 2, 2};
  size_t came = 0, len = 6;
  uint32_t moved = 0;
  for (size_t i = 0; i < SWEEPS * 4; i++) {
    memcpy(list + len, wires[i % 4], 2);
    len += 2;
    struct hub h = run(3, line, sizeof line, list, len);
    if (wires[i % 4][0] == 1 && wires[i % 4][1] == 0)
      came += h.moved - moved;
    moved = h.moved;
    if (came <= CAME) {
      EXPECT(word(&h, 0, DEROWLAS_HOP) == hop[came] && word(&h, 0, DEROWLAS_NOT_SPT + 1) == heard[came]);
      EXPECT(word(&h, 0, DEROWLAS_NEIGHBORS + 1) == list_1[came] && word(&h, 0, DEROWLAS_NEIGHBORS + 2) == list_2[came]);
      EXPECT(word(&h, 0, DEROWLAS_STATE) == (came < CAME ? DEROWLAS_AWAKE : DEROWLAS_STOPPED));
    }
  }
  EXPECT(came == CAME && moved == 24);
}

/* (p6) Triangle: sent 30. */
static void p6(void) {
  struct hub h = drain(3, triangle, sizeof triangle, 7, DEROWLAS_BUDGET);
  EXPECT(h.sent == 30 && h.finished);
}

/* (p7) The ring: sent 52; at box 0 In_SPT(1) is {1,3}, (2) is {2}; Not_SPT(1) is {1,3}, (2) is {2,3}. */
static void p7(void) {
  struct hub h = drain(4, ring, sizeof ring, 15, DEROWLAS_BUDGET);
  EXPECT(h.sent == 52 && h.finished);
  EXPECT(word(&h, 0, DEROWLAS_IN_SPT + 1) == 10 && word(&h, 0, DEROWLAS_IN_SPT + 2) == 4);
  EXPECT(word(&h, 0, DEROWLAS_NOT_SPT + 1) == 10 && word(&h, 0, DEROWLAS_NOT_SPT + 2) == 12);
}

/* (p8) Line 0-1-2, list (0,0) (0,1): sent 3, moved 1, under way 2. With (1,0) after: 4, 2, 2, HOP of box 0 is 1. */
static void p8(void) {
  const uint8_t list[] = {0, 0, 0, 1, 1, 0};
  struct hub h = run(3, line, sizeof line, list, 4);
  EXPECT(h.sent == 3 && h.moved == 1 && h.under_way == 2);
  h = run(3, line, sizeof line, list, 6);
  EXPECT(h.sent == 4 && h.moved == 2 && h.under_way == 2);
  EXPECT(word(&h, 0, DEROWLAS_HOP) == 1);
}

/* (p9) Empty list: all asleep, and a sleeping box's block is all zero. So for a drain that starts none. */
static void p9(void) {
  struct hub h = run(3, line, sizeof line, line, 0), d = drain(3, line, sizeof line, 0, DEROWLAS_BUDGET);
  for (size_t i = 0; i < DEROWLAS_BOARD_WORDS; i++)
    EXPECT(h.board[i] == 0 && d.board[i] == 0);
  EXPECT(h.sent == 0 && d.sent == 0 && d.finished);
}

/* ---- document 01, "Lists and the drain" */

/* Budget 0 only starts: box 0 sends to its one neighbour, which sleeps on. */
static void budget_0(void) {
  struct hub h = drain(3, line, sizeof line, 1, 0);
  EXPECT(h.sent == 1 && h.moved == 0 && h.under_way == 1 && !h.finished);
  EXPECT(word(&h, 0, DEROWLAS_STATE) == DEROWLAS_AWAKE && word(&h, 1, DEROWLAS_STATE) == DEROWLAS_ASLEEP);
}

/* "Starting a box that is not asleep, or an empty wire, changes nothing and counts nothing": the list of p8 with such pairs among its own. */
static void nothing_changes(void) {
  const uint8_t list[] = {0, 0, 0, 1, 1, 0};
  const uint8_t idle[] = {0, 1, 0, 0, 0, 0, 2, 1, 0, 1, 0, 1, 1, 1, 1, 0, 1, 0, 0, 0};
  struct hub h = run(3, line, sizeof line, list, sizeof list), same = run(3, line, sizeof line, idle, sizeof idle);
  EXPECT(same.sent == 4 && same.moved == 2 && same.under_way == 2);
  EXPECT(memcmp(h.board, same.board, sizeof h.board) == 0);
}

enum shape { LINE, RING, STAR, MESH, SHAPES };

static bool joined(enum shape shape, size_t n, size_t low, size_t high) {
  switch (shape) {
  case LINE: return low + 1 == high;
  case RING: return low + 1 == high || (low == 0 && high == n - 1);
  case STAR: return low == 0;
  default: return true;
  }
}

/* Hops to the farthest box. */
static size_t farthest(enum shape shape, size_t n, size_t i) {
  if (n == 1)
    return 0;
  switch (shape) {
  case LINE: return i > n - 1 - i ? i : n - 1 - i;
  case RING: return n / 2;
  case STAR: return i == 0 || n == 2 ? 1 : 2;
  default: return 1;
  }
}

/* Every shape of every size, started whole: the counts at rest, HOP of each box, and what a budget ends. */
static void shapes(void) {
  for (enum shape shape = LINE; shape < SHAPES; shape++)
    for (size_t n = 1; n <= DEROWLAS_BOXES; n++) {
      uint8_t sheet[DEROWLAS_SHEET_BYTES];
      uint16_t all = 0;
      size_t len = 0;
      /* Over wires, e of the sender + 3; and n(n - 1). */
      uint32_t exact = (uint32_t)(n * (n - 1));
      for (size_t low = 0; low < n; low++) {
        all = (uint16_t)(all | 1u << low);
        for (size_t high = low + 1; high < n; high++)
          if (joined(shape, n, low, high)) {
            sheet[len++] = (uint8_t)low;
            sheet[len++] = (uint8_t)high;
            exact += (uint32_t)(farthest(shape, n, low) + 3 + farthest(shape, n, high) + 3);
          }
      }
      memcpy(sheet + len, (const uint8_t[]){(uint8_t)(len + 4), (uint8_t)(len / 2), (uint8_t)n, 1}, 4);
      len += 4;
      const uint32_t budgets[] = {0, 1, exact / 2, exact - (exact > 0), exact, DEROWLAS_BUDGET, UINT32_MAX};
      for (size_t b = 0; b < sizeof budgets / sizeof *budgets; b++) {
        struct hub h = drain(n, sheet, len, all, budgets[b]);
        EXPECT(h.moved == (budgets[b] < exact ? budgets[b] : exact));
        EXPECT(h.finished == (exact <= budgets[b]));
        if (h.finished)
          for (size_t i = 0; i < n; i++)
            EXPECT(stopped(&h, i, (uint16_t)(n == 1 ? 0 : farthest(shape, n, i) + 2)));
      }
    }
}

/* ---- document 01, "Numbers given when the hub refuses" */

static bool run_refused(const uint8_t *sheet, size_t sheet_len, const uint8_t *list, size_t list_len, size_t board_len, uint32_t number) {
  uint8_t *own_sheet = copy(sheet, sheet_len), *own_list = copy(list, list_len);
  uint16_t *board = lent(board_len, 0);
  struct derowlas_ran r = derowlas_run(own_sheet, sheet_len, own_list, list_len, board, board_len);
  bool holds = r.number == number && r.sent == 0 && r.moved == 0 && r.under_way == 0 && stays(board, board_len, 0);
  free(board), free(own_list), free(own_sheet);
  return holds;
}

static bool drain_refused(const uint8_t *sheet, size_t sheet_len, uint16_t starts, size_t board_len, uint32_t number) {
  uint8_t *own_sheet = copy(sheet, sheet_len);
  uint16_t *board = lent(board_len, 0);
  struct derowlas_drained d = derowlas_drain(own_sheet, sheet_len, starts, DEROWLAS_BUDGET, board, board_len);
  bool holds = d.number == number && d.sent == 0 && d.moved == 0 && d.under_way == 0 && !d.finished && stays(board, board_len, 0);
  free(board), free(own_sheet);
  return holds;
}

enum { LINE_WORDS = 3 * DEROWLAS_BLOCK_WORDS };

/* The sheet's numbers come first, whatever is wrong with list, start set and board. */
static void sheet_refused(const uint8_t *sheet, size_t len, uint32_t number) {
  const uint8_t wrong[] = {0, 0, 0, 2, 9, 9, 9};
  EXPECT(run_refused(sheet, len, wrong, 2, LINE_WORDS, number));
  EXPECT(run_refused(sheet, len, wrong, sizeof wrong, 0, number));
  EXPECT(drain_refused(sheet, len, 1, LINE_WORDS, number));
  EXPECT(drain_refused(sheet, len, 0xffff, 0, number));
}

#define REFUSED(number, ...) sheet_refused((const uint8_t[]){__VA_ARGS__}, sizeof((const uint8_t[]){__VA_ARGS__}), number)

static void sheets_refused(void) {
  for (size_t len = 0; len < 4; len++)
    sheet_refused(line, len, DEROWLAS_REFUSED_SHORT_SHEET);
  REFUSED(DEROWLAS_REFUSED_VERSION, 0, 1, 1, 2, 8, 2, 3, 2);
  REFUSED(DEROWLAS_REFUSED_BOXES, 0, 1, 1, 2, 8, 2, 0, 1);
  REFUSED(DEROWLAS_REFUSED_BOXES, 4, 0, 17, 1); /* (p11) */
  REFUSED(DEROWLAS_REFUSED_LINKS, 0, 1, 1, 2, 246, 121, 16, 1);
  REFUSED(DEROWLAS_REFUSED_BACK, 0, 1, 0, 1, 9, 2, 2, 1); /* (p10) */
  REFUSED(DEROWLAS_REFUSED_BACK, 1, 1, 2, 8, 2, 3, 1);
  REFUSED(DEROWLAS_REFUSED_PAIR_BOX, 0, 1, 1, 3, 8, 2, 3, 1);
  REFUSED(DEROWLAS_REFUSED_PAIR_TURNED, 0, 1, 2, 1, 8, 2, 3, 1);
  REFUSED(DEROWLAS_REFUSED_PAIR_ORDER, 0, 1, 0, 1, 8, 2, 2, 1); /* (p10) */
}

#define LIST(number, board_len, ...) \
  EXPECT(run_refused(line, sizeof line, (const uint8_t[]){__VA_ARGS__}, sizeof((const uint8_t[]){__VA_ARGS__}), board_len, number))

static void lists_refused(void) {
  static const uint8_t zeros[DEROWLAS_LIST_BYTES + 2];
  LIST(DEROWLAS_REFUSED_LIST_LENGTH, LINE_WORDS, 0);
  LIST(DEROWLAS_REFUSED_LIST_LENGTH, LINE_WORDS, 0, 0, 1);
  EXPECT(run_refused(line, sizeof line, zeros, DEROWLAS_LIST_BYTES + 1, LINE_WORDS, DEROWLAS_REFUSED_LIST_LENGTH));
  EXPECT(run_refused(line, sizeof line, zeros, DEROWLAS_LIST_BYTES + 2, LINE_WORDS, DEROWLAS_REFUSED_LIST_LENGTH));
  struct hub h = run(3, line, sizeof line, zeros, DEROWLAS_LIST_BYTES);
  EXPECT(h.sent == 1);
  LIST(DEROWLAS_REFUSED_LIST_BOX, LINE_WORDS, 3, 3);
  LIST(DEROWLAS_REFUSED_LIST_BOX, LINE_WORDS, 0, 0, 0, 1, 2, 255);
  LIST(DEROWLAS_REFUSED_LIST_LINK, LINE_WORDS, 0, 0, 0, 2);
  /* The order is the table's: the length, then pair by pair, then the board. */
  LIST(DEROWLAS_REFUSED_LIST_LENGTH, 0, 0, 2, 3);
  LIST(DEROWLAS_REFUSED_LIST_LINK, 0, 2, 0, 3, 3);
  LIST(DEROWLAS_REFUSED_LIST_BOX, 0, 3, 3, 2, 0);
  for (size_t len = 0; len < LINE_WORDS; len++)
    LIST(DEROWLAS_REFUSED_ROOM, len, 0, 0, 0, 1);
}

static void drains_refused(void) {
  for (uint16_t starts = 8; starts != 0; starts = (uint16_t)(starts << 1)) {
    EXPECT(drain_refused(line, sizeof line, starts, LINE_WORDS, DEROWLAS_REFUSED_LIST_BOX));
    EXPECT(drain_refused(line, sizeof line, starts | 7, 0, DEROWLAS_REFUSED_LIST_BOX));
  }
  for (size_t len = 0; len < LINE_WORDS; len++)
    EXPECT(drain_refused(line, sizeof line, 7, len, DEROWLAS_REFUSED_ROOM));
}

int main(void) {
  p1();
  p2();
  p3();
  p4();
  p5();
  p6();
  p7();
  p8();
  p9();
  budget_0();
  nothing_changes();
  shapes();
  sheets_refused();
  lists_refused();
  drains_refused();
  return expected();
}
