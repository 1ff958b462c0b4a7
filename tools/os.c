// The C of the kit's library `os` that our programs can call (its src/c.rt says what each function does), for the programs that tools/native makes on another
// processor than x86-64: the kit has it compiled for x86-64 alone.
#include <errno.h>
#include <string.h>
#include <sys/types.h>

int rattle_errno(void) { return errno; }
void rattle_set_errno(int error) { errno = error; }

// The arguments, which glibc hands to each function that it runs before main.
static int count;
static char **words;
__attribute__((constructor)) static void keep(int argc, char **argv) {
  count = argc;
  words = argv;
}

size_t rattle_arg_count(void) { return (size_t)count; }

ssize_t rattle_arg(size_t i, unsigned char *buf, size_t room) {
  if (i >= (size_t)count || !words[i]) return -1;
  size_t length = strlen(words[i]);
  memcpy(buf, words[i], length < room ? length : room);
  return length <= room ? (ssize_t)length : -2;
}
