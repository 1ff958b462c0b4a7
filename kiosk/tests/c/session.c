/* The archive from a program in C, by nickelgrove.h: its sizes, document 01's session, the desk's questions, the list of saw cuts, a blade, tidying, and
 * refusals that leave the session as it was. kiosk/test compiles and runs it. The last line counts as cargo's does. */
#include <stdio.h>
#include <string.h>

#include "nickelgrove.h"

static const char OPEN[] = "010001000000640000003c0103005a";
/* The same sheet for a saw whose blade is 3 wide; for one that is 101 wide; and as it was opened before there was a blade. */
static const char OPEN_WITH_BLADE[] = "010001000000640000003c01030357";
static const char OPEN_TOO_WIDE[] = "010001000000640000003c010365f5";
static const char OPEN_OLD[] = "010001000000640000003c01035a";
static const char BOOKING[] = "03000101000000020007000000280000003c0000018d";
/* The same into the piece that it leaves. */
static const char BOOKING_BEHIND[] = "03000102000000040007000000280000003c0000018a";
static const char KEEP[] = "05fb";
static const char RESTORE[] = "06fa";
static const char REPORT[] = "07f9";
static const char TIDY[] = "1be5";

/* What is lent, each with bytes behind it that nobody may write. */
enum { BEHIND = 256 };

static struct {
  struct nickelgrove_session session;
  uint8_t behind_session[BEHIND];
  uint8_t answer[NICKELGROVE_LONGEST];
  uint8_t behind_answer[BEHIND];
  uint8_t desk_answer[NICKELGROVE_DESK_LONGEST];
  uint8_t behind_desk_answer[BEHIND];
  uint8_t list[NICKELGROVE_ROOM];
  uint8_t behind_list[BEHIND];
} lent;

static int passed, failed;

static void check(int right, const char *what) {
  printf("test %s ... %s\n", what, right ? "ok" : "FAILED");
  if (right) passed++;
  else failed++;
}

static void start(void) {
  memset(&lent, 7, sizeof lent);
  memset(&lent.session, 0, sizeof lent.session);
}

static int all(const uint8_t *bytes, size_t count, int byte) {
  for (size_t at = 0; at < count; at++)
    if (bytes[at] != byte) return 0;
  return 1;
}

static int guards_stand(void) {
  return all(lent.behind_session, BEHIND, 7) && all(lent.behind_answer, BEHIND, 7) && all(lent.behind_desk_answer, BEHIND, 7) &&
         all(lent.behind_list, BEHIND, 7);
}

/* Whether the line gets this answer, with its newline and then zeros. */
static int says(const char *line, const char *answer) {
  size_t length = strlen(answer);
  size_t count = nickelgrove_step(&lent.session, (const uint8_t *)line, strlen(line), lent.answer);
  return count == length + 1 && memcmp(lent.answer, answer, length) == 0 && lent.answer[length] == '\n' &&
         all(lent.answer + count, NICKELGROVE_LONGEST - count, 0) && guards_stand();
}

/* Whether two layouts have the same numbers. */
static int same_layout(const struct nickelgrove_layout *a, const struct nickelgrove_layout *b) {
  for (int place = 0; place < NICKELGROVE_LIMIT; place++) {
    const struct nickelgrove_node *n = &a->nodes[place], *m = &b->nodes[place];
    if (n->datum.serial != m->datum.serial || n->datum.width != m->datum.width || n->datum.height != m->datum.height ||
        n->datum.number != m->datum.number || n->datum.level != m->datum.level || n->datum.kind != m->datum.kind ||
        n->datum.cut != m->datum.cut || n->datum.eaten != m->datum.eaten || n->parent != m->parent || n->first != m->first || n->last != m->last || n->prev != m->prev ||
        n->next != m->next || a->free[place] != b->free[place] || a->removable[place] != b->removable[place])
      return 0;
  }
  return a->held == b->held && a->frees == b->frees && a->removables == b->removables && a->used == b->used &&
         a->serial == b->serial && a->number == b->number && a->stages == b->stages && a->blade == b->blade && a->width == b->width && a->height == b->height;
}

/* Whether the line gets this answer and the session stays as it was. */
static int stays(const char *line, const char *answer) {
  struct nickelgrove_session before = lent.session;
  return says(line, answer) && same_layout(&lent.session.layout, &before.layout) && same_layout(&lent.session.kept, &before.kept);
}

/* Whether the desk gives the line this answer, with its newline and then zeros. */
static int desk_says(const char *line, const char *answer) {
  size_t length = strlen(answer);
  size_t count = nickelgrove_desk(&lent.session, (const uint8_t *)line, strlen(line), lent.desk_answer);
  return count == length + 1 && memcmp(lent.desk_answer, answer, length) == 0 && lent.desk_answer[length] == '\n' &&
         all(lent.desk_answer + count, NICKELGROVE_DESK_LONGEST - count, 0) && guards_stand();
}

/* The same, and the session stays as it was. */
static int desk_stays(const char *line, const char *answer) {
  struct nickelgrove_session before = lent.session;
  return desk_says(line, answer) && same_layout(&lent.session.layout, &before.layout) && same_layout(&lent.session.kept, &before.kept);
}

static void sizes(void) {
  check(nickelgrove_limit() == NICKELGROVE_LIMIT, "the limit");
  check(nickelgrove_longest() == NICKELGROVE_LONGEST, "the longest answer");
  check(nickelgrove_desk_longest() == NICKELGROVE_DESK_LONGEST, "the longest answer of the desk");
  check(nickelgrove_room() == NICKELGROVE_ROOM, "the room for a list");
  check(nickelgrove_session_bytes() == sizeof(struct nickelgrove_session), "the size of a session");
}

static void document_01_session(void) {
  start();
  check(stays(REPORT, "0701f8"), "a report before an opening");
  check(says(OPEN, "010000010100000002fb"), "the opening");
  check(says(BOOKING, "030000010100000003000101000000030100010200000004eb"), "the booking");
  check(stays(BOOKING, "0305f8"), "the booking again");
  check(stays("no frame", "ff0ef3") && stays("", "ff0ef3"), "a malformed line");
}

/* The questions of the desk on document 01's sheet with its part on it: why 101 x 60 doesn't fit, the light for it and for 60 x 60, the lists, the numbers, the
 * figures, the tree and the cuts. */
static void desk(void) {
  start();
  check(desk_stays("15eb", "1501ea") && desk_stays("17e9", "1701e8") && desk_stays(REPORT, "0701f8"), "the desk before an opening");
  check(desk_stays("010001000000000000003c010300be", "0102fd"), "an opening outside the limits, at the desk");
  check(desk_says(OPEN, "010000010100000002fb") && desk_says(KEEP, "0500fb"), "an opening and a keep, at the desk");
  check(desk_says(BOOKING, "030000010100000003000101000000030100010200000004eb"), "the booking, at the desk");
  check(desk_stays("11000102000000040008000000650000003c003f", "11000102ec"), "why not: too wide, and too tall when it is turned");
  check(desk_stays("120008000000650000003c0045", "12000000000000000000ee"), "no light");
  check(desk_stays("1200080000003c0000003c006e", "12000100010200000004e6"), "a light");
  check(desk_stays("130000ed", "130000010200000004e6") && desk_stays("130001ec", "130ce1"), "the free list and its end");
  check(desk_stays("140000ec", "140000010100000003e7") && desk_stays("140002ea", "140ce0"), "the removable list and its end");
  check(desk_stays("15eb", "150000010007e3"), "the part numbers");
  check(desk_stays("16ea", "160000000000000009600000000000000e100003003fd999999999999a3fd999999999999a02"), "the figures");
  check(desk_stays("17e9", "170000030002010000000000640000003c000101000007000000280000003c0001000000000000003c0000003c005d"), "the tree");
  check(desk_stays("18e8", "18000001000001000000280100bd"), "the saw cuts");
  check(desk_stays("19e7", "19000000000000000000e7") && desk_stays("1ae6", "1a00000100e5"), "the eaten area and the amounts of the cuts: nothing");
  check(desk_stays(BOOKING, "0305f8") && desk_stays("no frame", "ff0ef3") && desk_stays("", "ff0ef3"), "the counter's lines at the desk");
  check(stays("15eb", "ff0ef3"), "a question of the desk at the counter");
  check(desk_says(RESTORE, "0600fa") && desk_stays("15eb", "15000000eb") && desk_stays(BOOKING_BEHIND, "0305f8"), "a restore, at the desk");
}

static void list_of_cuts(void) {
  static const uint8_t cut[] = {0, 0, 1, 0, 0, 0, 40, 1, 0};
  start();
  check(nickelgrove_cuts(&lent.session, lent.list) == NICKELGROVE_NO_LIST && all(lent.list, NICKELGROVE_ROOM, 7), "no list before an opening");
  check(says(OPEN, "010000010100000002fb") && nickelgrove_cuts(&lent.session, lent.list) == 0, "an empty list");
  check(says(BOOKING, "030000010100000003000101000000030100010200000004eb") && nickelgrove_cuts(&lent.session, lent.list) == sizeof cut &&
            memcmp(lent.list, cut, sizeof cut) == 0 && all(lent.list + sizeof cut, NICKELGROVE_ROOM - sizeof cut, 7) && guards_stand(),
        "a list of one cut");
}

/* A blade that is 3 wide: what it eats, and that it is given back; and openings that are not taken. */
static void blade(void) {
  start();
  check(stays(OPEN_OLD, "ff0ef3") && desk_stays(OPEN_OLD, "ff0ef3"), "an opening without a width is malformed");
  check(stays(OPEN_TOO_WIDE, "0102fd") && desk_stays(OPEN_TOO_WIDE, "0102fd"), "a blade that is 101 wide");
  check(says(OPEN_WITH_BLADE, "010000010100000002fb") && lent.session.layout.blade == 3 && says(KEEP, "0500fb"), "a blade that is 3 wide");
  check(says(BOOKING, "030000010100000003000101000000030100010200000004eb") && lent.session.layout.nodes[1].datum.eaten == 3 &&
            lent.session.layout.nodes[2].datum.width == 57 && lent.session.layout.nodes[2].datum.eaten == 0,
        "a booking loses it behind the part");
  check(desk_stays("17e9", "170000030002010000000000640000003c000101000007000000280000003c030100000000000000390000003c005d"), "the tree, with what is eaten");
  check(desk_stays("18e8", "18000001000001000000280100bd") && desk_stays("19e7", "190000000000000000b433") && desk_stays("1ae6", "1a00000103e2"),
        "the saw cuts, the eaten area, the amounts of the cuts");
  check(stays(OPEN_TOO_WIDE, "0102fd") && stays(OPEN_OLD, "ff0ef3"), "a sheet that is there stays");
  check(says("0400010100000003f7", "040000010100000005010007ed") && lent.session.layout.nodes[1].datum.width == 100, "a removal gives it back");
  check(says(OPEN, "010000010100000002fb") && lent.session.layout.blade == 0 && says(RESTORE, "0600fa") && lent.session.layout.blade == 3,
        "a restore brings the width back");
  lent.session.layout.blade = 101;
  check(stays(REPORT, "0701f8") && stays(BOOKING, "0301fc"), "a layout with a blade that is 101 wide");
}

/* Part 7 of 40 x 30 is booked by AcrossThenAlong and taken out: a structure and a strip stay, and tidying takes both out. What is kept stays. */
static void tidying(void) {
  struct nickelgrove_layout kept;
  start();
  check(desk_stays(TIDY, "1b01e4") && stays(TIDY, "ff0ef3"), "tidying before an opening, and at the counter");
  check(desk_says(OPEN_WITH_BLADE, "010000010100000002fb") && desk_says(KEEP, "0500fb") && desk_stays(TIDY, "1b000000e5"), "a sheet that is tidy stays");
  kept = lent.session.kept;
  check(desk_says("03000101000000020007000000280000001e000004a8", "03000001010000000300010300000005020001040000000600010500000007d5") &&
            desk_stays(TIDY, "1b000000e5"),
        "and so does one with a part in each structure");
  check(desk_says("0400010300000005f3", "040000010300000008010007e8") && lent.session.layout.held == 5, "the part is out, and its structures stay");
  lent.session.layout.serial = 999999;
  check(desk_stays(TIDY, "1b09dc"), "two serials are wanted, and there is one");
  lent.session.layout.serial = 8;
  check(stays(TIDY, "ff0ef3") && desk_stays("1b00e5", "ff0ef3"), "it is malformed at the counter, and with a byte too many");
  check(desk_says(TIDY, "1b000002e3") && lent.session.layout.held == 2 && lent.session.layout.serial == 10 && same_layout(&lent.session.kept, &kept),
        "both are taken out");
  kept.serial = kept.nodes[1].datum.serial = 10;
  check(same_layout(&lent.session.layout, &kept) && desk_stays(TIDY, "1b000000e5"), "and the sheet is that of the opening, with another serial");
}

static void unlisted(void) {
  start();
  says(OPEN, "010000010100000002fb");
  check(says(KEEP, "0500fb"), "a keep");
  lent.session.kept.nodes[1].datum.cut = 2;
  check(stays(RESTORE, "0601f9"), "a kept layout with an unlisted cut");
  lent.session.kept.nodes[1].datum.cut = 0;
  lent.session.layout.nodes[1].datum.kind = 3;
  check(stays(BOOKING, "0301fc") && stays(KEEP, "0501fa") && stays(RESTORE, "0601f9") && stays(REPORT, "0701f8"),
        "a layout with an unlisted kind");
  check(desk_stays("130000ed", "1301ec") && desk_stays("15eb", "1501ea") && desk_stays("16ea", "1601e9") && desk_stays("17e9", "1701e8") &&
            desk_stays("18e8", "1801e7") && desk_stays("19e7", "1901e6") && desk_stays("1ae6", "1a01e5") && desk_stays(TIDY, "1b01e4"),
        "and the desk's questions, and tidying");
  check(nickelgrove_cuts(&lent.session, lent.list) == NICKELGROVE_NO_LIST && all(lent.list, NICKELGROVE_ROOM, 7), "and its list");
  check(says(OPEN, "010000010100000002fb") && says(RESTORE, "0600fa"), "an opening takes its place");
}

int main(void) {
  sizes();
  document_01_session();
  desk();
  list_of_cuts();
  blade();
  tidying();
  unlisted();
  printf("test result: %s. %d passed; %d failed\n", failed ? "FAILED" : "ok", passed, failed);
  return failed != 0;
}
