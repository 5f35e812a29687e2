/*
 * How much stack each call uses, which no proof speaks of. A call is made on a thread whose stack was filled before; the lowest byte that has changed says
 * how deep it went. What a thread uses that makes no call is taken off. Prints a line for each call, the most over all cases, and holds it to the
 * header's DEROWLAS_STACK_BYTES. The last line is 'N passed, M failed'.
 */
#define _GNU_SOURCE
#include "derowlas.h"
#include "expect.h"

#include <pthread.h>
#include <stdlib.h>
#include <string.h>

enum { STACK = 1 << 20, FILL = 0xa5 };

static uint8_t sheet[DEROWLAS_SHEET_BYTES], list[DEROWLAS_LIST_BYTES];
static size_t sheet_len, list_len;
static uint16_t table[DEROWLAS_TABLE_WORDS], board[DEROWLAS_BOARD_WORDS];
static uint8_t buffer[DEROWLAS_SHEET_BYTES];

static void do_nothing(void) {}
static void do_read(void) { EXPECT(derowlas_read(sheet, sheet_len, table, DEROWLAS_TABLE_WORDS).number == 0); }
static void do_write(void) { EXPECT(derowlas_write(DEROWLAS_BOXES, table, DEROWLAS_TABLE_WORDS, buffer, sizeof buffer).number == 0); }
static void do_allowance(void) { EXPECT(derowlas_allowance(sheet, sheet_len).number == 0); }
static void do_run(void) { EXPECT(derowlas_run(sheet, sheet_len, list, list_len, board, DEROWLAS_BOARD_WORDS).number == 0); }
static void do_drain(void) { EXPECT(derowlas_drain(sheet, sheet_len, 1, DEROWLAS_BUDGET, board, DEROWLAS_BOARD_WORDS).finished); }

struct call {
  const char *name;
  void (*make)(void);
  size_t most;
};

static void *on_thread(void *call) {
  ((struct call *)call)->make();
  return NULL;
}

/* The bytes of stack that a thread uses which makes this call. */
static size_t used(struct call *call) {
  static unsigned char *stack;
  pthread_attr_t attr;
  pthread_t thread;
  size_t low = 0;
  if (stack == NULL && (stack = aligned_alloc(4096, STACK)) == NULL)
    abort();
  memset(stack, FILL, STACK);
  if (pthread_attr_init(&attr) != 0 || pthread_attr_setstack(&attr, stack, STACK) != 0 || pthread_create(&thread, &attr, on_thread, call) != 0)
    abort();
  pthread_join(thread, NULL);
  pthread_attr_destroy(&attr);
  while (low < STACK && stack[low] == FILL)
    low++;
  return STACK - low;
}

/* A hub of 16 boxes: a line, a ring, a star or the full mesh; and a list that starts box 0 and goes over its links both ways, again and again. */
enum shape { LINE, RING, STAR, MESH, SHAPES };

static bool linked(enum shape shape, int low, int high) {
  switch (shape) {
  case LINE: return low + 1 == high;
  case RING: return low + 1 == high || (low == 0 && high == DEROWLAS_BOXES - 1);
  case STAR: return low == 0;
  default: return true;
  }
}

static void draw(enum shape shape) {
  uint8_t links = 0;
  sheet_len = 0;
  for (int low = 0; low < DEROWLAS_BOXES; low++)
    for (int high = low + 1; high < DEROWLAS_BOXES; high++)
      if (linked(shape, low, high)) {
        sheet[sheet_len++] = (uint8_t)low;
        sheet[sheet_len++] = (uint8_t)high;
        links++;
      }
  memset(list, 0, 2);
  for (list_len = 2; list_len + 4 <= DEROWLAS_LIST_BYTES; list_len += 4) {
    const uint8_t *pair = sheet + (list_len - 2) / 4 % links * 2;
    list[list_len] = list[list_len + 3] = pair[0];
    list[list_len + 1] = list[list_len + 2] = pair[1];
  }
  sheet[sheet_len++] = (uint8_t)(4 + 2 * links);
  sheet[sheet_len++] = links;
  sheet[sheet_len++] = DEROWLAS_BOXES;
  sheet[sheet_len++] = 1;
}

int main(void) {
  struct call nothing = {"nothing", do_nothing, 0};
  struct call calls[] = {{"read", do_read, 0}, {"write", do_write, 0}, {"allowance", do_allowance, 0}, {"run", do_run, 0}, {"drain", do_drain, 0}};
  const size_t n = sizeof calls / sizeof *calls;
  for (enum shape shape = LINE; shape < SHAPES; shape++) {
    draw(shape);
    for (size_t i = 0; i < n; i++) {
      /* once before, so that the system has found what the call itself calls */
      calls[i].make();
      size_t bytes = used(&calls[i]) - used(&nothing);
      if (calls[i].most < bytes)
        calls[i].most = bytes;
    }
  }
  for (size_t i = 0; i < n; i++) {
    printf("derowlas_%s: %zu bytes of stack\n", calls[i].name, calls[i].most);
    EXPECT(calls[i].most <= DEROWLAS_STACK_BYTES);
  }
  /* the waiting messages of 256 wires stand on the stack: a drain that took less was not measured */
  EXPECT(calls[n - 1].most >= 256 * 36 * sizeof(uint32_t));
  return expected();
}
