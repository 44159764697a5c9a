/* stack job|judge|infer: one of the calls over all records of standard input, on a thread whose stack has as many bytes as the header
   states, above a page that nobody may touch. Prints the verdicts, and the proposals that are worked out; and to standard error how much of
   the stack was used. */
#define _GNU_SOURCE
#include <pthread.h>
#include <stdio.h>
#include <stdlib.h>
#include <string.h>
#include <sys/mman.h>
#include <unistd.h>

#include "../include/page_check.h"

enum { UNUSED = 0xA5 };

struct slice {
    uint8_t *bytes;
    size_t length;
};

/* The next slice, behind its length of 32 bits, lowest byte first; 0 at the end of the input. An empty one is lent as NULL. */
static int read_slice(struct slice *s)
{
    uint8_t head[4];

    if (fread(head, 1, 4, stdin) < 4)
        return 0;
    free(s->bytes);
    s->bytes = NULL;
    s->length = head[0] | (size_t)head[1] << 8 | (size_t)head[2] << 16 | (size_t)head[3] << 24;
    if (s->length == 0)
        return 1;
    s->bytes = malloc(s->length);
    return s->bytes != NULL && fread(s->bytes, 1, s->length, stdin) == s->length;
}

static struct slice first, second;
static uint64_t verdict[4], answer[5];
static uint64_t work[PAGE_CHECK_WORK];
static uint8_t proposal[4194304];

static void print(const uint64_t numbers[4])
{
    printf("%llu %llu %llu %llu\n", (unsigned long long)numbers[0], (unsigned long long)numbers[1],
           (unsigned long long)numbers[2], (unsigned long long)numbers[3]);
}

static void print_proposal(void)
{
    printf("ok %llu ", (unsigned long long)answer[4]);
    for (size_t i = 0; i < answer[4]; i++)
        printf("%02X", proposal[i]);
    printf("\n");
}

static void *call_job(void *unused)
{
    page_check_job(first.bytes, first.length, verdict);
    return unused;
}

static void *call_judge(void *unused)
{
    page_check_judge(first.bytes, first.length, second.bytes, second.length, verdict);
    return unused;
}

static void *call_infer(void *unused)
{
    page_check_infer(first.bytes, first.length, work, PAGE_CHECK_WORK, proposal, sizeof proposal, 0, answer);
    return unused;
}

int main(int argc, char **argv)
{
    int is_judge = argc == 2 && strcmp(argv[1], "judge") == 0;
    int is_infer = argc == 2 && strcmp(argv[1], "infer") == 0;
    size_t size = is_judge ? PAGE_CHECK_JUDGE_STACK : is_infer ? PAGE_CHECK_INFER_STACK : PAGE_CHECK_JOB_STACK;
    size_t guard = (size_t)sysconf(_SC_PAGESIZE);
    uint8_t *memory = mmap(NULL, guard + size, PROT_READ | PROT_WRITE, MAP_PRIVATE | MAP_ANONYMOUS, -1, 0);
    pthread_attr_t attributes;
    size_t unused = 0;

    if (!is_judge && !is_infer && (argc != 2 || strcmp(argv[1], "job") != 0)) {
        fprintf(stderr, "usage: stack job|judge|infer\n");
        return 2;
    }
    if (memory == MAP_FAILED || mprotect(memory, guard, PROT_NONE) != 0 || pthread_attr_init(&attributes) != 0
        || pthread_attr_setstack(&attributes, memory + guard, size) != 0) {
        perror("stack");
        return 1;
    }
    memset(memory + guard, UNUSED, size);
    while (read_slice(&first) && (!is_judge || read_slice(&second))) {
        pthread_t thread;

        if (pthread_create(&thread, &attributes, is_judge ? call_judge : is_infer ? call_infer : call_job, NULL) != 0
            || pthread_join(thread, NULL) != 0) {
            perror("stack");
            return 1;
        }
        if (!is_infer)
            print(verdict);
        else if (answer[0] == 0)
            print_proposal();
        else
            print(answer);
    }
    while (unused < size && memory[guard + unused] == UNUSED)
        unused++;
    fprintf(stderr, "%s: %zu of %zu bytes of stack used\n", argv[1], size - unused, size);
    return 0;
}
