/* The page check, for x86-64. Each call answers a verdict as four numbers: its kind N and its places A, B, C, unused ones 0 (README.md
   has the table); a call that writes tells a fifth, the number of bytes written. A wrong element has 12, 14 or 15, by its attributes, its
   contents or a clause of its rule: A is the point, C the offset of its `23`, and B its template, or for 15 the clause's place in the
   rule, from 0; for a page that is judged alone A is 0, and B too, but for 15.

   Memory is lent as a pointer and a length. Any values may stand in it, and it may have any length; NULL with length 0 is allowed. What is
   lent as `const` is read and never written to. `verdict` and `answer` are not NULL; they are written to. No two pieces lent to one call
   may overlap, unless both are `const`. */
#ifndef PAGE_CHECK_H
#define PAGE_CHECK_H

#include <stddef.h>
#include <stdint.h>

/* Bytes of stack that are enough for each call, whatever is lent: measured with some to spare, not proved. */
#define PAGE_CHECK_JOB_STACK 81920
#define PAGE_CHECK_JUDGE_STACK 622592
#define PAGE_CHECK_INFER_STACK 65536

#ifdef __cplusplus
extern "C" {
#endif

/* Checks a job. If the verdict is acceptance, every run of the job shows only right pages. */
void page_check_job(const uint8_t *job, size_t job_length, uint64_t verdict[4]);

/* Works out the smallest proposal that covers the program of a job, and writes it, `4F` last, into the buffer from a place on. `job` is a
   job up to and including `3F`. Followed by this proposal, it is accepted whenever it would be with any other, if the two have at most
   65,535 bytes together; whether it is accepted, page_check_job tells. `answer` gets N, A, B, C and the number of bytes written, 0 on a
   refusal.

   `work_length` counts 64-bit numbers, `buffer_length` bytes. What is left in them, by the answer:
     1 to 8   the job cannot be read: both are as they were.
     13       if work_length < PAGE_CHECK_WORK: A is PAGE_CHECK_WORK, and both are as they were.
     13       otherwise: `place` is past the buffer's end, or the proposal does not fit after it. A is the length of the proposal; the
              buffer is as it was, the work area all 0. (A buffer of length 0 is a way to learn that length.)
     0        the proposal is written: it stands in the buffer from `place` on, and all other bytes are as they were; the work area is all 0.
   */
#define PAGE_CHECK_WORK 131072
void page_check_infer(const uint8_t *job, size_t job_length, uint64_t *work, size_t work_length, uint8_t *buffer,
                      size_t buffer_length, size_t place, uint64_t answer[5]);

/* Judges one page under one vocabulary. */
void page_check_judge(const uint8_t *vocabulary, size_t vocabulary_length, const uint8_t *page, size_t page_length,
                      uint64_t verdict[4]);

#ifdef __cplusplus
}
#endif

#endif
