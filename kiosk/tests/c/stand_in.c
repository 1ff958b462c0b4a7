/* An archive of another build, for tests/stand_in.rs: one of its sizes, which NICKELGROVE_OTHER names, is 8 more than nickelgrove.h says, and its calls write
 * that much. kiosk/test compiles it. */
#include <stdlib.h>
#include <string.h>

#include "nickelgrove.h"

static size_t size(const char *name, size_t ours) {
  const char *other = getenv("NICKELGROVE_OTHER");
  return other && strcmp(other, name) == 0 ? ours + 8 : ours;
}

size_t nickelgrove_limit(void) { return size("limit", NICKELGROVE_LIMIT); }
size_t nickelgrove_longest(void) { return size("longest", NICKELGROVE_LONGEST); }
size_t nickelgrove_desk_longest(void) { return size("desk_longest", NICKELGROVE_DESK_LONGEST); }
size_t nickelgrove_room(void) { return size("room", NICKELGROVE_ROOM); }
size_t nickelgrove_session_bytes(void) { return size("session_bytes", sizeof(struct nickelgrove_session)); }

size_t nickelgrove_step(struct nickelgrove_session *session, const uint8_t *line, size_t length, uint8_t *answer) {
  (void)line;
  (void)length;
  memset(session, 0, nickelgrove_session_bytes());
  memset(answer, '\n', nickelgrove_longest());
  return nickelgrove_longest();
}

size_t nickelgrove_desk(struct nickelgrove_session *session, const uint8_t *line, size_t length, uint8_t *answer) {
  (void)line;
  (void)length;
  memset(session, 0, nickelgrove_session_bytes());
  memset(answer, '\n', nickelgrove_desk_longest());
  return nickelgrove_desk_longest();
}

uint16_t nickelgrove_cuts(const struct nickelgrove_session *session, uint8_t *list) {
  (void)session;
  memset(list, 0, nickelgrove_room());
  return 0;
}
