/* Says which processing came before which, with the proved engine. The row stands on standard input, one record a line in decimal: chare,
   TN, sender, and the sender's TN at which the message was sent (0 0 for the desk). The pairs stand in the call:

     cc -std=c99 -Ic c/precedes.c target/staticlib/libsatuphir.a -o precedes
     printf '1 1 0 0\n2 1 1 1\n' | ./precedes 1:1 2:1                                                                            */
#include "satuphir.h"
#include <stdio.h>

/* A chare or sender, and a TN of it, as two numbers. */
typedef unsigned long pair[2];

static int fits(const pair numbers) { return numbers[0] <= UINT8_MAX && numbers[1] <= UINT16_MAX; }

static int read_record(const char *line, satuphir_processing *out) {
  pair own, sender;
  int end = 0;
  sscanf(line, "%9lu %9lu %9lu %9lu %n", &own[0], &own[1], &sender[0], &sender[1], &end);
  if (end == 0 || line[end] != '\0' || !fits(own) || !fits(sender)) return 0;
  *out = (satuphir_processing){(uint8_t)own[0], (uint16_t)own[1], (uint8_t)sender[0], (uint16_t)sender[1]};
  return 1;
}

static int read_name(const char *word, pair out) {
  int end = 0;
  sscanf(word, "%9lu:%9lu%n", &out[0], &out[1], &end);
  return end > 0 && word[end] == '\0' && fits(out);
}

static void print_answer(uint32_t answer) {
  if (answer > SATUPHIR_BAD)
    printf("bad at place %u\n", (unsigned)(answer - SATUPHIR_BAD));
  else
    puts(answer == SATUPHIR_YES ? "yes" : answer == SATUPHIR_NO ? "no" : "unknown");
}

static int fail(const char *what) {
  perror(what);
  return 2;
}

int main(int words, char **word) {
  /* One record past the most makes a row bad, however it goes on. */
  satuphir_processing row[SATUPHIR_ROW_MOST + 1];
  size_t len = 0;
  char line[80];
  while (len <= SATUPHIR_ROW_MOST && fgets(line, sizeof line, stdin) != NULL) {
    if (!read_record(line, &row[len++])) {
      fprintf(stderr, "precedes: line %zu is no record\n", len);
      return 2;
    }
  }
  if (ferror(stdin)) return fail("precedes: standard input");

  for (int at = 1; at < words; at += 2) {
    pair first, later;
    if (at + 1 == words || !read_name(word[at], first) || !read_name(word[at + 1], later)) {
      fprintf(stderr, "precedes: no pair at %s\n", word[at]);
      return 2;
    }
    printf("%s before %s: ", word[at], word[at + 1]);
    print_answer(satuphir_precedes(row, len, (uint8_t)first[0], (uint16_t)first[1], (uint8_t)later[0], (uint16_t)later[1]));
  }
  if (ferror(stdout) || fflush(stdout) != 0) return fail("precedes: standard output");
  return 0;
}
