/* What the C programs here count: facts that hold, and facts that don't, which are printed. */
#ifndef EXPECT_H
#define EXPECT_H

#include <stdbool.h>
#include <stdio.h>

static unsigned passed, failed;

static void expect(bool holds, const char *what, int line) {
  if (holds) {
    passed++;
  } else {
    failed++;
    printf("line %d: %s\n", line, what);
  }
}

#define EXPECT(fact) expect((fact), #fact, __LINE__)

/* The last line, 'N passed, M failed', and the exit status. */
static int expected(void) {
  printf("%u passed, %u failed\n", passed, failed);
  return failed != 0;
}

#endif
