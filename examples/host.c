/* Checks the job on standard input and prints its verdict; then judges one page under one vocabulary and prints that; then works out the
   proposal of a script behind it, prints the verdict and the bytes written, and checks the job that the two make. */
#include <stdio.h>
#include <string.h>

#include "../include/page_check.h"

static void print(const uint64_t *numbers, size_t count)
{
    for (size_t i = 0; i < count; i++)
        printf("%llu%c", (unsigned long long)numbers[i], i + 1 < count ? ' ' : '\n');
}

int main(void)
{
    static const uint8_t vocabulary[] = {0x01, 1, 0x02, 0, 0x03, 2, 0x04, 0x16, 2, 2, 0x04, 0x15, 2, 0x01, 2, 0x03, 0, 0x05, 1};
    static const uint8_t page[] = {0x23, 1, 0x23, 2, 0x21, 0x26, 0x26, 0x27};
    static const uint8_t script[] = {
        0x01, 1, 0x02, 0, 0x03, 2, 0x04, 0x16, 2, 2, 0x04, 0x15, 2, 0x01, 2, 0x03, 0, 0x05, 1,
        0x20, 0x23, 1, 0x22, 0, 0x26, 0x27, 0x20, 0x23, 2, 0x21, 0x26, 0x27, 0x2F,
        0x31, 0, 1, 1, 1, 0x31, 1, 2, 2, 2, 0x35, 0, 0, 0, 1, 3, 3, 0x37, 0, 4, 4, 0x38, 0x3F,
    };
    static uint64_t work[PAGE_CHECK_WORK];
    /* One byte more than a job may have: a job that fills it is too long, whatever follows. */
    static uint8_t job[65536];
    uint64_t verdict[4], answer[5];
    size_t length = fread(job, 1, sizeof job, stdin);

    if (ferror(stdin)) {
        perror("standard input");
        return 1;
    }
    page_check_job(job, length, verdict);
    print(verdict, 4);
    page_check_judge(vocabulary, sizeof vocabulary, page, sizeof page, verdict);
    print(verdict, 4);
    memcpy(job, script, sizeof script);
    page_check_infer(script, sizeof script, work, PAGE_CHECK_WORK, job, sizeof job, sizeof script, answer);
    print(answer, 5);
    if (answer[0] == 0) {
        page_check_job(job, sizeof script + answer[4], verdict);
        print(verdict, 4);
    }
    return 0;
}
