/*
 * The Derowlas hub for C and C++ programs.
 *
 * Link with libderowlas_c.a, which `bin/archive` writes to target/staticlib (x86-64 Linux). The library needs memcpy and memset
 * of the C library and nothing else: no memory of its own, no set-up.
 *
 * Words. A hub has N boxes, numbered 0 to N - 1. A set of boxes is a 16-bit number in which box k has the value 2^k. A link joins two different
 * boxes. A link table has DEROWLAS_TABLE_WORDS words: word k is the set of the boxes that box k has a link to, and is 0 from N on.
 *
 * What holds for every call
 * - It always returns, whatever the bytes and numbers that it is given, and its answer is a struct by value. `number` is 0 (DEROWLAS_ACCEPTED) where
 *   the call was done, and else the number of the first refusal that applies, in the order given at the call; all other fields are then 0.
 * - A refusal changes nothing: no word or byte of the memory that was lent to be written.
 * - Nothing is read outside [pointer, pointer + length), and nothing is written outside the memory that is not const.
 * - It takes at most DEROWLAS_STACK_BYTES of the caller's stack, and no other memory: measured by tests/c/stack.c, since no proof speaks of it.
 * - It keeps no state. Any thread may call at any time, as long as no two threads write the same lent memory, or one writes what another reads.
 *
 * What the caller owes, since nothing can check it
 * - Pointers are not NULL, even where the length is 0. Point to any object then.
 * - The length is the number of elements (bytes, or 16-bit words) that the pointer leads to, and a uint16_t pointer is aligned as C asks.
 * - Memory that is lent to be written does not overlap what the same call reads.
 *
 * Each call is proved to answer as its definition in crates/rules/specs/Calls.antt says, on memory that is lent so.
 */
#ifndef DEROWLAS_H
#define DEROWLAS_H

#include <stdbool.h>
#include <stddef.h>
#include <stdint.h>

#ifdef __cplusplus
extern "C" {
#endif

/* The most boxes of a hub. */
#define DEROWLAS_BOXES 16

/* The most links of a hub: one between any two boxes. */
#define DEROWLAS_LINKS 120

/* The words of a link table. */
#define DEROWLAS_TABLE_WORDS 16

/* The longest sheet, 4 + 2 * DEROWLAS_LINKS bytes: a buffer of this size is never refused with 15. */
#define DEROWLAS_SHEET_BYTES 244

/* The stack that a call may take: a thread that calls must have this much left. */
#define DEROWLAS_STACK_BYTES 65536

/*
 * `number` of an answer. The numbers 9 and 11 are of derowlas_run alone, 10 and 13 of derowlas_run and derowlas_drain.
 * N, P, B and version are the bytes of a sheet's trailer, see derowlas_read.
 */
enum derowlas_refusal {
  DEROWLAS_ACCEPTED = 0,             /* not refused */
  DEROWLAS_REFUSED_SHORT_SHEET = 1,  /* sheet shorter than 4 bytes */
  DEROWLAS_REFUSED_VERSION = 2,      /* version not 1 */
  DEROWLAS_REFUSED_BOXES = 3,        /* N is 0 or above 16 */
  DEROWLAS_REFUSED_LINKS = 4,        /* P above 120 */
  DEROWLAS_REFUSED_BACK = 5,         /* B not 4 + 2P, or B beyond the file's start */
  DEROWLAS_REFUSED_PAIR_BOX = 6,     /* a pair names a box of N or above */
  DEROWLAS_REFUSED_PAIR_TURNED = 7,  /* first of the pair not lower than second */
  DEROWLAS_REFUSED_PAIR_ORDER = 8,   /* pair not above the one before */
  DEROWLAS_REFUSED_LIST_LENGTH = 9,  /* list of odd length or over 60,000 bytes */
  DEROWLAS_REFUSED_LIST_BOX = 10,    /* list or start set names a box of N or above */
  DEROWLAS_REFUSED_LIST_LINK = 11,   /* list names two different boxes without a link */
  DEROWLAS_REFUSED_ROOM = 12,        /* board below 66N words, or link table not 16 words */
  DEROWLAS_REFUSED_WIRE_FULL = 13,   /* a message would be the 21st waiting on one wire and its receiving queue together: proved never to happen */
  DEROWLAS_REFUSED_TABLE = 14,       /* table to write: not 16 words, not the same both ways, a box linked to itself, or a box of N or above */
  DEROWLAS_REFUSED_BUFFER = 15       /* buffer to write is below 4 + 2P bytes */
};

/* ---- the link sheet */

struct derowlas_reading {
  uint32_t number; /* enum derowlas_refusal */
  uint32_t boxes;  /* N, 1 to 16 */
  uint32_t links;  /* P, 0 to 120 */
};

/*
 * Reads a link sheet into a lent link table.
 *
 * The sheet is read from its end. Its last four bytes are B, P, N, version: version is 1, N the number of boxes, P the number of links, and
 * B = 4 + 2P says how many bytes before the end the first pair stands. Each of the P pairs is two bytes, the lower box of a link and then the higher,
 * and the pairs rise strictly, by first box and then by second. Bytes before them belong to other programs and have no effect.
 *
 * sheet, sheet_len: read. A file's bytes, of any length; none before the last DEROWLAS_SHEET_BYTES is ever needed.
 * table, table_len: written where the answer's number is 0, all DEROWLAS_TABLE_WORDS of them: the link set of each box, 0 from N on.
 *
 * Refusals, the first that applies: 1 to 5; then pair by pair 6, 7, 8; then 12 where table_len is not DEROWLAS_TABLE_WORDS.
 */
struct derowlas_reading derowlas_read(const uint8_t *sheet, size_t sheet_len, uint16_t *table, size_t table_len);

struct derowlas_written {
  uint32_t number; /* enum derowlas_refusal */
  uint32_t length; /* the bytes written, 4 + 2P */
};

/*
 * Writes the link sheet of N boxes and a link table to the start of a lent buffer.
 *
 * boxes: N.
 * table, table_len: read. DEROWLAS_TABLE_WORDS words, the link set of each box.
 * buffer, buffer_len: its first `length` bytes are written where the answer's number is 0; the bytes after them stay as they were.
 *
 * Reading what was written gives the table back. Writing what derowlas_read gave gives the sheet's last B bytes.
 *
 * Refusals, the first that applies: 3, 14, 15.
 */
struct derowlas_written derowlas_write(uint32_t boxes, const uint16_t *table, size_t table_len, uint8_t *buffer, size_t buffer_len);

struct derowlas_allowed {
  uint32_t number;     /* enum derowlas_refusal */
  uint32_t identities; /* E * (2N - 1), where E = 2P is the number of wires */
};

/*
 * The allowance of a sheet, which planners use for line charges: the identities that a full broadcast sends. 0 for a sheet without links.
 *
 * sheet, sheet_len: read, as derowlas_read reads it.
 *
 * Refusals, the first that applies: 1 to 5; then pair by pair 6, 7, 8.
 */
struct derowlas_allowed derowlas_allowance(const uint8_t *sheet, size_t sheet_len);

/* ---- lists and the drain */

/* The words of a box on a board: state, HOP, and the four tables of 16 words, Nodes, In_SPT, Not_SPT, Neighbors, in this order. */
#define DEROWLAS_BLOCK_WORDS 66

/* A board that serves every hub, DEROWLAS_BOXES * DEROWLAS_BLOCK_WORDS words. */
#define DEROWLAS_BOARD_WORDS 1056

/* The longest list, in bytes. */
#define DEROWLAS_LIST_BYTES 60000

/* A budget that finishes the drain of every sheet. */
#define DEROWLAS_BUDGET 4560

/* Where the parts of a box's block begin. */
enum derowlas_word {
  DEROWLAS_STATE = 0,
  DEROWLAS_HOP = 1,
  DEROWLAS_NODES = 2,
  DEROWLAS_IN_SPT = 18,
  DEROWLAS_NOT_SPT = 34,
  DEROWLAS_NEIGHBORS = 50
};

/* The state of a box. */
enum derowlas_state {
  DEROWLAS_ASLEEP = 0,
  DEROWLAS_AWAKE = 1,
  DEROWLAS_STOPPED = 2
};

struct derowlas_ran {
  uint32_t number;    /* enum derowlas_refusal */
  uint32_t sent;      /* messages that boxes sent */
  uint32_t moved;     /* messages that were delivered */
  uint32_t under_way; /* messages that are on a wire and not yet delivered: sent - moved */
};

/*
 * Runs a list of deliveries on a sheet, from a hub in which every box sleeps, and writes the board.
 *
 * The list is a run of pairs of bytes. A pair (a, a) starts box a, where it sleeps. A pair (a, b) of two different boxes delivers the first message
 * that waits on the wire from a to b, where one does.
 *
 * sheet, sheet_len: read, as derowlas_read reads it.
 * list, list_len: read.
 * board, board_len: its first DEROWLAS_BLOCK_WORDS * N words are written where the answer's number is 0; the words after them stay as they were.
 *   Word DEROWLAS_BLOCK_WORDS * i is the state of box i, and the next its HOP, the rounds that it has done, at most 17. Then come, 16 words each:
 *   Nodes, at d the set of the boxes at d hops; In_SPT, at k the set of the origins whose lists box i takes over its link from k; Not_SPT, at k
 *   those that k does not take from box i; and Neighbors, at k the links of box k. In_SPT and Not_SPT are 0 at a k that is no neighbour; a 0 in
 *   Neighbors is also the set of a box without links. The tables of a stopped box are at rest; those of an awake one have what it knows so far. A
 *   sleeping box has zeros alone.
 *
 * Refusals, the first that applies: those of derowlas_allowance; 9; then pair by pair 10, 11; 12 where board_len is below DEROWLAS_BLOCK_WORDS * N;
 * 13 as it happens.
 */
struct derowlas_ran derowlas_run(const uint8_t *sheet, size_t sheet_len, const uint8_t *list, size_t list_len, uint16_t *board, size_t board_len);

struct derowlas_drained {
  uint32_t number;    /* enum derowlas_refusal */
  uint32_t sent;      /* as in derowlas_ran */
  uint32_t moved;     /* as in derowlas_ran; at most the budget */
  uint32_t under_way; /* as in derowlas_ran */
  bool finished;      /* nothing is under way */
};

/*
 * Starts a set of boxes and then delivers, one message at a time, the first that waits: of the lowest sender, and of that to the lowest receiver. It
 * ends when nothing is under way or `budget` messages were delivered, and writes the board.
 *
 * sheet, sheet_len: read, as derowlas_read reads it.
 * starts: the set of the boxes to start, in ascending order.
 * budget: 0 only starts. DEROWLAS_BUDGET finishes every sheet.
 * board, board_len: written as derowlas_run writes it.
 *
 * Refusals, the first that applies: those of derowlas_allowance; 10 where starts has a box of N or above; 12; 13.
 */
struct derowlas_drained derowlas_drain(const uint8_t *sheet, size_t sheet_len, uint16_t starts, uint32_t budget, uint16_t *board, size_t board_len);

#ifdef __cplusplus
}
#endif

#endif
