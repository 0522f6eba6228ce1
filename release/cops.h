/*
 * The judge of the program cops as a library: link libcops.a, or load libcops.so. docs/FORMATS.md describes what it reads and says.
 *
 * Each function judges input[0..input_len) and says a text. It writes the text to output[0..*written) and nothing behind it. If
 * output_len is below the length of the text, it returns COPS_TOO_SMALL with that length in *written, and output stays as it was.
 *
 * No pointer may be null, not even with the length 0. The input, the output and *written must not overlap, and no other thread may use
 * them during the call, except to read the input. Calls may run in any number of threads at once. The library keeps nothing.
 */
#ifndef COPS_H
#define COPS_H

#include <stdbool.h>
#include <stddef.h>
#include <stdint.h>

#ifdef __cplusplus
extern "C" {
#endif

enum {
    COPS_ACCEPTED = 0,  /* the input is one history, and it is causally convergent */
    COPS_REFUSED = 1,   /* the input is one history, and it has faults */
    COPS_FAULTY = 2,    /* the input is no trace, or has a wrong line */
    COPS_NO_MEMORY = 3, /* out of memory: output is as it was, and *written is 0 */
    COPS_TOO_SMALL = 5  /* output is too small and as it was, and *written is the size that is needed */
};

/* A buffer of this size is large enough for cops_audit and cops_audit_so_far wherever they do not refuse. */
enum { COPS_SIZE_UNLESS_REFUSED = 64 };

/* Judges the bytes of a trace. The text is that of `cops audit`. */
uint8_t cops_audit(const uint8_t *input, size_t input_len, uint8_t *output, size_t output_len, size_t *written);

/*
 * Judges the bytes of a trace that may be cut, as those of a run that goes on. Where they are not cut it does what cops_audit does. Where
 * they are, the text has the line `cut at OFFSET` and then `so far: clean`, `so far: waiting N` or `so far: refused`, and it is
 * COPS_REFUSED only with the last, and otherwise COPS_ACCEPTED.
 */
uint8_t cops_audit_so_far(const uint8_t *input, size_t input_len, uint8_t *output, size_t output_len, size_t *written);

/*
 * Judges JSON Lines, an operation each. The text is the JSON object of `cops check --json`, and with is_ranked of `cops check --json
 * --rank`.
 */
uint8_t cops_check_lines(const uint8_t *input, size_t input_len, bool is_ranked, uint8_t *output, size_t output_len, size_t *written);

#ifdef __cplusplus
}
#endif
#endif
