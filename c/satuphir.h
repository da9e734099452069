/* The proved engine for callers in C (x86-64). `tools/library.sh` proves it and writes target/staticlib/libsatuphir.a, to be
   linked; it needs nothing else and keeps nothing between calls. c/play.c, c/pieces.c, c/survivors.c and c/precedes.c are examples. */
#ifndef SATUPHIR_H
#define SATUPHIR_H

#include <stddef.h>
#include <stdint.h>

#ifdef __cplusplus
extern "C" {
#endif

/* No line is longer, newline included: so many bytes for each line of the input are room enough. The input has one line more than
   newlines, unless it ends in one. */
#define SATUPHIR_LINE_SPACE 16

/* The answer where room ran out. */
#define SATUPHIR_NO_ROOM SIZE_MAX

/* Plays a whole list, in hexadecimal digits, one frame a line, and writes its lines to `out`. Gives the number of bytes written. As soon
   as fewer than SATUPHIR_LINE_SPACE bytes of `out` are left ahead of a byte of the input it stops and gives SATUPHIR_NO_ROOM, even if the
   lines to come were short enough. In every case `*written` is the number of bytes written: whole lines, those of the frames that were
   played. Nothing that is passed may overlap, and no pointer may be null, not even for a length of 0. */
size_t satuphir_transcript(const unsigned char *input, size_t input_len, unsigned char *out, size_t out_len, size_t *written);

/* The same in pieces, for callers that keep a sitting: a reader holds its state, the first bytes of the line under way and how many they
   are. Of zeros it has read nothing. */
#define SATUPHIR_STATE_WORDS 3287
#define SATUPHIR_LINE_BYTES 2047
typedef struct {
  uint64_t state[SATUPHIR_STATE_WORDS];
  unsigned char line[SATUPHIR_LINE_BYTES];
  size_t len;
} satuphir_reader;

/* SATUPHIR_STATE_WORDS as the linked library has it; another number: it was built with another header. */
size_t satuphir_state_words(void);

/* Feeds a reader (its `state`, `line` and `&len`) a piece of an input of any size, and writes the lines of the frames that end in it to
   `out`, `*written` bytes. Gives how many bytes of the piece it took: fewer than all where fewer than SATUPHIR_LINE_SPACE bytes of `out`
   were left ahead of the next one; the rest is then fed in another call. */
size_t satuphir_feed(uint64_t *state, unsigned char *line, size_t *len, const unsigned char *input, size_t input_len, unsigned char *out,
                     size_t out_len, size_t *written);

/* At the end of the input: what follows the last newline is a frame if it is not empty. Gives the number of bytes written to `out`, 0 or a
   line, and the reader may be fed on, with a new line. Where a line is under way and out_len is below SATUPHIR_LINE_SPACE, nothing is
   written, the answer is SATUPHIR_NO_ROOM, and the reader is as it was. */
size_t satuphir_finish(uint64_t *state, unsigned char *line, size_t *len, unsigned char *out, size_t out_len);

/* Room enough for the lines of satuphir_survivors, whatever the job. */
#define SATUPHIR_SURVIVORS_SPACE 48

/* Counts the crash sets that a job's buddies survive. Only the first line of the input is read, a job in hexadecimal digits. For each
   f from 1 to the number of machines a line goes to `out`: f, the number of sets of f machines, and the number of those in which no
   machine stands together with its buddy, in decimal, with single blanks. A first line that is no acceptable job gets its number
   alone (01, 02 or 03, as at the head of a list), an empty input nothing. Gives the number of bytes written. Where out_len is below
   SATUPHIR_SURVIVORS_SPACE nothing is written, and the answer is SATUPHIR_NO_ROOM, whatever the input. Both places as above. */
size_t satuphir_survivors(const unsigned char *input, size_t input_len, unsigned char *out, size_t out_len);

/* A processing: `chare` worked its ticket `tn`. The message was sent by `sender` when that one worked its own ticket `sender_tn`; both
   are 0 for the desk. */
typedef struct {
  uint8_t chare;
  uint16_t tn;
  uint8_t sender;
  uint16_t sender_tn;
} satuphir_processing;

/* A good row has no more records. */
#define SATUPHIR_ROW_MOST 512

/* The answers of satuphir_precedes. SATUPHIR_BAD and a place, 1 to 513: the row is bad there. */
#define SATUPHIR_NO 0
#define SATUPHIR_YES 1
#define SATUPHIR_UNKNOWN 2
#define SATUPHIR_BAD 1000

/* Does the processing `chare`, `tn` come before the processing `later_chare`, `later_tn`? One comes before another on the same chare with a
   higher TN, or the one whose message it sent, or through a chain of such steps; none before itself. The row is bad at its first record
   that has a chare outside 1 to 12 or a sender outside 0 to 12, names as sending one that does not stand earlier in the row, gives the
   desk a TN other than 0, is not the k-th of its chare with TN k, or is the 513th. Of a good row the answer is SATUPHIR_UNKNOWN if one
   of the two is not in it, else SATUPHIR_YES or SATUPHIR_NO. The row is not changed; its pointer must not be null, not even for a
   length of 0. */
uint32_t satuphir_precedes(const satuphir_processing *row, size_t row_len, uint8_t chare, uint16_t tn, uint8_t later_chare,
                           uint16_t later_tn);

#ifdef __cplusplus
}
#endif

#endif
