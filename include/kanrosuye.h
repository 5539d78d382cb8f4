/* Kanrosuye: exact polynomials with a price on them, proved.
 *
 * The library for kiosks: `tools/staticlib job` writes target/staticlib/libjob.a.
 * No function allocates, keeps state or calls the operating system; each may be called from any thread
 * that has 2 MiB of stack. What each returns, and every byte it writes, is proved for all inputs.
 */
#ifndef KANROSUYE_H
#define KANROSUYE_H

#include <stddef.h>
#include <stdint.h>

#ifdef __cplusplus
extern "C" {
#endif

/* The answer to any job fits this many bytes. */
#define KANROSUYE_ANSWER_BYTES 4096

/* The longest job that is worked; a longer one is answered with status 5. */
#define KANROSUYE_JOB_BYTES 4096

/* What kanrosuye_place says of a job that is not malformed. */
#define KANROSUYE_NO_PLACE SIZE_MAX

/* Runs the job in input[0 .. input_len) and writes its answer, the text that polyjob prints, to out.
 * Returns how many bytes the answer has. If out_len is less than that, the return value is 0 and
 * nothing is written (refusal 8); that can't happen with KANROSUYE_ANSWER_BYTES.
 */
size_t kanrosuye_job(const uint8_t *input, size_t input_len, uint8_t *out, size_t out_len);

/* Where a malformed job goes wrong: the byte where its first bad line or token starts, or its length
 * if a line or the last newline is missing, or KANROSUYE_JOB_BYTES if it is too long.
 * KANROSUYE_NO_PLACE if it is not malformed.
 */
size_t kanrosuye_place(const uint8_t *input, size_t input_len);

#ifdef __cplusplus
}
#endif

#endif
