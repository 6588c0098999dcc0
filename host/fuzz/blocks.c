/* Tells libFuzzer when an input is the first to reach a basic block of the library's own machine code.
 *
 * The library is compiled without any counters. So its blocks are listed beforehand (blocks.awk), and a breakpoint of one
 * byte is put on each. The first arrival there traps: the handler puts the byte back, counts the block for libFuzzer and
 * goes on. From then on the block runs as it was compiled.
 *
 * FITTING_BLOCKS names the list: for each block a line with its distance from fitting_run in bytes, and its name.
 * FITTING_BLOCKS_LEFT, if set, names a file for the blocks that were never reached.
 */
#define _GNU_SOURCE
#include <signal.h>
#include <stdint.h>
#include <stdio.h>
#include <stdlib.h>
#include <sys/mman.h>
#include <ucontext.h>
#include <unistd.h>

enum { MOST = 4096, NAME = 64, BREAKPOINT = 0xCC };

extern uint64_t fitting_run(const uint8_t *, size_t, const uint8_t *, size_t, uint8_t *, size_t);
extern void fitting_fuzz_summary(void);

/* libFuzzer looks at this section after every input, and clears it before the next. */
__attribute__((section("__libfuzzer_extra_counters"))) static uint8_t counters[MOST];

static struct block {
    uint8_t *at;
    uint8_t byte;
    int reached;
    char name[NAME];
} blocks[MOST];
static int count;

static void fail(const char *what) {
    fprintf(stderr, "blocks.c: %s\n", what);
    exit(1);
}

/* The block at this address. */
static struct block *find(const uint8_t *at) {
    for (int i = 0; i < count; i++)
        if (blocks[i].at == at)
            return &blocks[i];
    return NULL;
}

static void arrived(int signal_number, siginfo_t *info, void *context) {
    (void)info;
    greg_t *ip = &((ucontext_t *)context)->uc_mcontext.gregs[REG_RIP];
    struct block *block = find((uint8_t *)*ip - 1);
    if (block == NULL) { /* not one of ours */
        signal(signal_number, SIG_DFL);
        return;
    }
    *block->at = block->byte;
    block->reached = 1;
    counters[block - blocks] = 1;
    *ip -= 1;
}

static void read_list(void) {
    const char *path = getenv("FITTING_BLOCKS");
    FILE *file = path ? fopen(path, "r") : NULL;
    if (file == NULL)
        fail("FITTING_BLOCKS names no list of blocks");
    long distance;
    while (count < MOST && fscanf(file, "%ld %63s", &distance, blocks[count].name) == 2) {
        blocks[count].at = (uint8_t *)fitting_run + distance;
        count++;
    }
    if (count == 0 || count == MOST || !feof(file))
        fail("the list of blocks can't be read");
    fclose(file);
}

static void put_breakpoints(void) {
    uintptr_t page = (uintptr_t)sysconf(_SC_PAGESIZE);
    uintptr_t first = (uintptr_t)blocks[0].at / page * page;
    uintptr_t last = (uintptr_t)blocks[count - 1].at;
    if (mprotect((void *)first, last - first + 1, PROT_READ | PROT_WRITE | PROT_EXEC) != 0)
        fail("the code can't be made writable");
    for (int i = 0; i < count; i++) {
        blocks[i].byte = *blocks[i].at;
        *blocks[i].at = BREAKPOINT;
    }
}

static void at_end(void) {
    int reached = 0;
    const char *path = getenv("FITTING_BLOCKS_LEFT");
    FILE *left = path ? fopen(path, "w") : NULL;
    for (int i = 0; i < count; i++) {
        reached += blocks[i].reached;
        if (left != NULL && !blocks[i].reached)
            fprintf(left, "%s\n", blocks[i].name);
    }
    if (left != NULL)
        fclose(left);
    fitting_fuzz_summary();
    printf("blocks of the library reached: %d of %d\n", reached, count);
    fflush(stdout);
}

/* libFuzzer calls this once, before any input. */
int LLVMFuzzerInitialize(int *argc, char ***argv) {
    (void)argc, (void)argv;
    read_list();
    struct sigaction action = {.sa_sigaction = arrived, .sa_flags = SA_SIGINFO};
    if (sigaction(SIGTRAP, &action, NULL) != 0)
        fail("no handler for SIGTRAP");
    put_breakpoints();
    return atexit(at_end);
}
