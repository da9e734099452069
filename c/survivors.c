/* Counts the crash sets that the buddies of the job on standard input survive, with the proved engine:

     cc -std=c99 -Ic c/survivors.c target/staticlib/libsatuphir.a -o survivors
     ./survivors < examples/15-buddy-before.in                                                                                   */
#include "satuphir.h"
#include <stdio.h>

static int fail(const char *what) {
  perror(what);
  return 2;
}

int main(void) {
  /* No frame has more than 2,046 digits: a line that is longer is garbled, however it goes on. */
  unsigned char input[2048], out[SATUPHIR_SURVIVORS_SPACE];
  size_t len = fread(input, 1, sizeof input, stdin);
  if (ferror(stdin)) return fail("survivors: standard input");

  size_t written = satuphir_survivors(input, len, out, sizeof out);
  if (written == SATUPHIR_NO_ROOM) {
    fputs("survivors: no room, which cannot be\n", stderr);
    return 2;
  }
  if (fwrite(out, 1, written, stdout) != written || fflush(stdout) != 0) return fail("survivors: standard output");
  return 0;
}
