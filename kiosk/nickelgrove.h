/* Nickelgrove's counter and desk for programs in C and C++: the archive libkiosk.a of the proved crate `kiosk`.
 *
 * A session is a record of plain numbers that the caller holds and lends. It starts with zeros: no sheet, and none kept. A line goes in and its answer
 * comes out, as document 01 sets them out ("Counter frames").
 *
 * Each call ends with its answer, whatever numbers the session and the line hold. It reads and writes what it is lent and nothing else, keeps none of it
 * and has no state of its own, so that different threads may call with different sessions. What is lent to one call must not overlap, and no pointer may be
 * null; an empty line may have any other. 512 KiB of stack are enough. */
#ifndef NICKELGROVE_H
#define NICKELGROVE_H

#include <stddef.h>
#include <stdint.h>

#ifdef __cplusplus
extern "C" {
#define NICKELGROVE_ASSERT static_assert
#else
#define NICKELGROVE_ASSERT _Static_assert
#endif

/* The most nodes that a layout holds; the bytes lent for an answer, for an answer of the desk, and for a list of saw cuts. */
#define NICKELGROVE_LIMIT 255
#define NICKELGROVE_LONGEST 1035
#define NICKELGROVE_DESK_LONGEST 7151
#define NICKELGROVE_ROOM 2295

/* Said in place of a list's bytes, where there is no list. */
#define NICKELGROVE_NO_LIST 65535

/* The numbers of a piece: kind 0 free, 1 part, 2 structure; cut 0 Horizontal, 1 Vertical; and what the blade ate behind it when it was cut off. A layout with
 * any other kind or cut, at any of its places, is not sound, and nor is one with more eaten than its blade is wide. */
struct nickelgrove_datum {
  uint32_t serial;
  uint32_t width;
  uint32_t height;
  uint16_t number;
  uint8_t level;
  uint8_t kind;
  uint8_t cut;
  uint8_t eaten;
};

/* A node: its piece, and the places that it is linked to; 255 is none. */
struct nickelgrove_node {
  struct nickelgrove_datum datum;
  uint16_t parent;
  uint16_t first;
  uint16_t last;
  uint16_t prev;
  uint16_t next;
};

/* A layout: its nodes by place, the free pieces and the removable ones, how many of each, and the sheet's own numbers, the width of the saw's blade (0 to 100)
 * among them. */
struct nickelgrove_layout {
  struct nickelgrove_node nodes[NICKELGROVE_LIMIT];
  uint16_t free[NICKELGROVE_LIMIT];
  uint16_t removable[NICKELGROVE_LIMIT];
  uint16_t held;
  uint16_t frees;
  uint16_t removables;
  uint64_t used;
  uint32_t serial;
  uint16_t number;
  uint8_t stages;
  uint8_t blade;
  uint32_t width;
  uint32_t height;
};

/* The sheet on the counter, and the one that was kept last. */
struct nickelgrove_session {
  struct nickelgrove_layout layout;
  struct nickelgrove_layout kept;
};

/* The archive's own sizes: NICKELGROVE_LIMIT, NICKELGROVE_LONGEST, NICKELGROVE_DESK_LONGEST, NICKELGROVE_ROOM and sizeof(struct nickelgrove_session). Compare
 * them before anything is lent: an archive of another build may have others, and would write past what it is lent. */
size_t nickelgrove_limit(void);
size_t nickelgrove_longest(void);
size_t nickelgrove_desk_longest(void);
size_t nickelgrove_room(void);
size_t nickelgrove_session_bytes(void);

/* Answers the line of `length` characters, which has no newline. Writes NICKELGROVE_LONGEST bytes to `answer`: the answer, its newline, and zeros. Gives how
 * many of them are the answer, its newline among them.
 *
 * Where the answer is a refusal (a number, or malformed), each number of the session is afterwards what it was before. Where it isn't, the session's layout is
 * the next one; the kept one is written by keep alone. Of the bytes between numbers nothing is said. */
size_t nickelgrove_step(struct nickelgrove_session *session, const uint8_t *line, size_t length, uint8_t *answer);

/* Answers the line of `length` characters as nickelgrove_step does, on the same session, and the lines of the desk's own ops too (docs/DESK.md): why not, the
 * room light, the two lists, the part numbers, the figures, the tree snapshot, the saw cuts, the eaten area (op 19) and what the blade eats with each cut (op 1a).
 * None of these changes anything. Op 1b tidies the layout: structures that hold one free piece and nothing else are taken out; the kept layout stays. A line of
 * nickelgrove_step gets the same answer here, byte for byte.
 *
 * Writes NICKELGROVE_DESK_LONGEST bytes to `answer`: the answer, its newline, and zeros. Gives how many of them are the answer, its newline among them. Where the
 * answer is a refusal, each number of the session is afterwards what it was before. */
size_t nickelgrove_desk(struct nickelgrove_session *session, const uint8_t *line, size_t length, uint8_t *answer);

/* Writes the saw cuts that make the parts and free pieces of the session's layout to the first bytes of `list`, which has room for NICKELGROVE_ROOM, and gives
 * how many bytes it wrote: 9 for each cut, in the order in which they are made. Place of the piece 2, way 1 (0 Horizontal, 1 Vertical), distance 4, what is cut
 * off 1 and what is left 1 (0 free, 1 part, 2 structure, 3 what is cut again: several siblings, or one and what is eaten behind it), highest byte first. The bytes
 * behind the list stay. Where the layout isn't sound it gives NICKELGROVE_NO_LIST and writes nothing. The session stays as it is.
 *
 * What the blade eats with each of these cuts, behind the piece that is cut off, stands beside the list: op 1a of nickelgrove_desk answers a byte for each cut, in
 * the order of the list. Where that is all that lay there, nothing is left, and what is left is said to be free. */
uint16_t nickelgrove_cuts(const struct nickelgrove_session *session, uint8_t *list);

/* The records as the archive has them. */
NICKELGROVE_ASSERT(sizeof(struct nickelgrove_datum) == 20, "the size of a datum");
NICKELGROVE_ASSERT(offsetof(struct nickelgrove_datum, serial) == 0, "serial");
NICKELGROVE_ASSERT(offsetof(struct nickelgrove_datum, width) == 4, "width");
NICKELGROVE_ASSERT(offsetof(struct nickelgrove_datum, height) == 8, "height");
NICKELGROVE_ASSERT(offsetof(struct nickelgrove_datum, number) == 12, "number");
NICKELGROVE_ASSERT(offsetof(struct nickelgrove_datum, level) == 14, "level");
NICKELGROVE_ASSERT(offsetof(struct nickelgrove_datum, kind) == 15, "kind");
NICKELGROVE_ASSERT(offsetof(struct nickelgrove_datum, cut) == 16, "cut");
NICKELGROVE_ASSERT(offsetof(struct nickelgrove_datum, eaten) == 17, "eaten");

NICKELGROVE_ASSERT(sizeof(struct nickelgrove_node) == 32, "the size of a node");
NICKELGROVE_ASSERT(offsetof(struct nickelgrove_node, datum) == 0, "datum");
NICKELGROVE_ASSERT(offsetof(struct nickelgrove_node, parent) == 20, "parent");
NICKELGROVE_ASSERT(offsetof(struct nickelgrove_node, first) == 22, "first");
NICKELGROVE_ASSERT(offsetof(struct nickelgrove_node, last) == 24, "last");
NICKELGROVE_ASSERT(offsetof(struct nickelgrove_node, prev) == 26, "prev");
NICKELGROVE_ASSERT(offsetof(struct nickelgrove_node, next) == 28, "next");

NICKELGROVE_ASSERT(sizeof(struct nickelgrove_layout) == 9216, "the size of a layout");
NICKELGROVE_ASSERT(offsetof(struct nickelgrove_layout, nodes) == 0, "nodes");
NICKELGROVE_ASSERT(offsetof(struct nickelgrove_layout, free) == 8160, "free");
NICKELGROVE_ASSERT(offsetof(struct nickelgrove_layout, removable) == 8670, "removable");
NICKELGROVE_ASSERT(offsetof(struct nickelgrove_layout, held) == 9180, "held");
NICKELGROVE_ASSERT(offsetof(struct nickelgrove_layout, frees) == 9182, "frees");
NICKELGROVE_ASSERT(offsetof(struct nickelgrove_layout, removables) == 9184, "removables");
NICKELGROVE_ASSERT(offsetof(struct nickelgrove_layout, used) == 9192, "used");
NICKELGROVE_ASSERT(offsetof(struct nickelgrove_layout, serial) == 9200, "serial");
NICKELGROVE_ASSERT(offsetof(struct nickelgrove_layout, number) == 9204, "number");
NICKELGROVE_ASSERT(offsetof(struct nickelgrove_layout, stages) == 9206, "stages");
NICKELGROVE_ASSERT(offsetof(struct nickelgrove_layout, blade) == 9207, "blade");
NICKELGROVE_ASSERT(offsetof(struct nickelgrove_layout, width) == 9208, "width");
NICKELGROVE_ASSERT(offsetof(struct nickelgrove_layout, height) == 9212, "height");

NICKELGROVE_ASSERT(sizeof(struct nickelgrove_session) == 18432, "the size of a session");
NICKELGROVE_ASSERT(offsetof(struct nickelgrove_session, layout) == 0, "layout");
NICKELGROVE_ASSERT(offsetof(struct nickelgrove_session, kept) == 9216, "kept");

#undef NICKELGROVE_ASSERT
#ifdef __cplusplus
}
#endif
#endif
