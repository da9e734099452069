/* Plays the list on standard input with the proved engine, in pieces and in constant memory:

     cc -std=c99 -Ic c/pieces.c target/staticlib/libsatuphir.a -o pieces
     ./pieces < examples/05-crash-with-cover.in                                                                                  */
#include "satuphir.h"
#include <stdio.h>

static satuphir_reader reader; /* zeros: it has read nothing */
static unsigned char input[4096], out[4096];

static int fail(const char *what) {
  perror(what);
  return 2;
}

int main(void) {
  size_t got, written;
  if (satuphir_state_words() != SATUPHIR_STATE_WORDS) {
    fputs("pieces: the library and its header do not belong together\n", stderr);
    return 2;
  }
  while ((got = fread(input, 1, sizeof input, stdin)) > 0) {
    /* the buffer for the lines may be full before the piece is read */
    for (size_t at = 0; at < got;) {
      at += satuphir_feed(reader.state, reader.line, &reader.len, input + at, got - at, out, sizeof out, &written);
      if (fwrite(out, 1, written, stdout) != written) return fail("pieces: standard output");
    }
  }
  if (ferror(stdin)) return fail("pieces: standard input");
  written = satuphir_finish(reader.state, reader.line, &reader.len, out, sizeof out);
  if (fwrite(out, 1, written, stdout) != written || fflush(stdout) != 0) return fail("pieces: standard output");
  return 0;
}
