/* Plays the list on standard input with the proved engine:

     cc -std=c99 -Ic c/play.c target/staticlib/libsatuphir.a -o play
     ./play < examples/05-crash-with-cover.in                                                                                    */
#include "satuphir.h"
#include <stdio.h>
#include <stdlib.h>

static int fail(const char *what) {
  perror(what);
  return 2;
}

int main(void) {
  size_t room = 1 << 16, len = 0, got;
  unsigned char *input = malloc(room);
  if (input == NULL) return fail("play");
  while ((got = fread(input + len, 1, room - len, stdin)) > 0) {
    len += got;
    if (len == room) {
      unsigned char *more = realloc(input, room *= 2);
      if (more == NULL) return fail("play");
      input = more;
    }
  }
  if (ferror(stdin)) return fail("play: standard input");

  size_t lines = 1;
  for (size_t at = 0; at < len; at++) lines += input[at] == '\n';
  unsigned char *out = malloc(lines * SATUPHIR_LINE_SPACE);
  if (out == NULL) return fail("play");
  size_t written;
  if (satuphir_transcript(input, len, out, lines * SATUPHIR_LINE_SPACE, &written) == SATUPHIR_NO_ROOM) {
    fputs("play: no room, which cannot be\n", stderr);
    return 2;
  }
  if (fwrite(out, 1, written, stdout) != written || fflush(stdout) != 0) return fail("play: standard output");
  free(out);
  free(input);
  return 0;
}
