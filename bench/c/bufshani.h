/* The proved libraries for C: crates/bufshani_c/out/libbufshani_c.a, made by `rt lib` in
   crates/bufshani_c, and for `bufshani_explore` crates/explore_c/out/libexplore_c.a, made by
   `rt lib` in crates/explore_c.
   A lent slice is a pointer, which is not NULL, and a length. Every call ends; it reads and writes
   only what is lent to it. A buffer that is written overlaps no other slice of the call.
   Numbers are those of documents 01 and 02: a text is refused by 1 to 7, 19 or 20, a short buffer by
   8; a run stops by 10 to 16. */
#ifndef BUFSHANI_H
#define BUFSHANI_H

#include <stddef.h>
#include <stdint.h>

#ifdef __cplusplus
extern "C" {
#endif

/* 0 for an accepted text, or its refusal: the number times 2^32 plus the line. */
uint64_t bufshani_read(const uint8_t *text, size_t text_len);

/* Writes the table of a text: the length written, or the refusal of the text or of a short buffer,
   which stays as it was. */
uint64_t bufshani_write(const uint8_t *text, size_t text_len, uint8_t *out, size_t out_len);

/* What the program `close` prints for a text, as far as the buffer reaches; gives its length, at
   most 65,536. */
size_t bufshani_close(const uint8_t *text, size_t text_len, uint8_t *out, size_t out_len);

/* What the program `run` prints for a text, as far as the buffer reaches; gives its length, at most
   5,925,000. The log has 8 bytes for each step; its first 800,000 bytes are used. */
size_t bufshani_run(const uint8_t *text, size_t text_len, const uint8_t *schedule,
                    size_t schedule_len, const int32_t *values, size_t values_len, size_t most,
                    uint8_t *log, size_t log_len, uint8_t *out, size_t out_len);

/* The run with no report, in all of the log: the stop number, 0 when the schedule ends, times 2^32
   plus the steps completed, modulo 2^32; or the refusal of the text. */
uint64_t bufshani_steps(const uint8_t *text, size_t text_len, const uint8_t *schedule,
                        size_t schedule_len, const int32_t *values, size_t values_len, size_t most,
                        uint8_t *log, size_t log_len);

/* What the program `explore` prints for a text, as far as the buffer reaches; gives its length, at
   most 131072. It tries at most `bound` steps. */
size_t bufshani_explore(const uint8_t *text, size_t text_len, size_t depth, uint64_t bound,
                        uint8_t *out, size_t out_len);

#ifdef __cplusplus
}
#endif

#endif
