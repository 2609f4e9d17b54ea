/* stack FILE..: the most bytes of stack that each function of the C library takes on these images. Each call is made on a stack of its
 * own, painted before, of which the lowest changed byte is looked for; what an empty call takes there is taken off. bench/size builds it. */
#include <stdio.h>
#include <string.h>
#include <ucontext.h>

#include "cembuxola.h"

#define STACK 1048576
#define PAINT 0xA5
#define MOST_BYTES 65536
#define MOST_ENTRIES 65535
#define WORDS 4096
#define STEPS 100000
#define CALLS 4

static uint8_t image[MOST_BYTES];
static uint32_t map[MOST_ENTRIES];
static uint8_t out[MOST_BYTES];
static uint32_t written[CEMBUXOLA_WRITTEN_NUMBERS];
static uint16_t place[CEMBUXOLA_PLACE_WORDS], store[WORDS], machine[CEMBUXOLA_MACHINE_WORDS], outputs[CEMBUXOLA_CHANNELS];
static const uint16_t inputs[CEMBUXOLA_CHANNELS];
static uint32_t answer[CEMBUXOLA_ANSWER_NUMBERS];
static size_t length;

static void none(void)
{
}

static void load(void)
{
    cembuxola_load(image, length, map, MOST_ENTRIES, place, CEMBUXOLA_PLACE_WORDS);
}

static void archive(void)
{
    cembuxola_archive(image, length, map, MOST_ENTRIES, out, MOST_BYTES, written, CEMBUXOLA_WRITTEN_NUMBERS);
}

static void start(void)
{
    cembuxola_start(image, length, store, WORDS, machine, CEMBUXOLA_MACHINE_WORDS);
}

static void run_with(uint16_t requests)
{
    cembuxola_run(machine, CEMBUXOLA_MACHINE_WORDS, image, length, map, MOST_ENTRIES, store, WORDS, outputs, CEMBUXOLA_CHANNELS,
                  inputs, CEMBUXOLA_CHANNELS, answer, CEMBUXOLA_ANSWER_NUMBERS, STEPS, requests);
}

/* Line 8 is requested where the program has stopped: examples/clock.img takes it there. */
static void run(void)
{
    run_with(0);
    run_with(1 << 8);
}

static size_t taken(void (*call)(void))
{
    static unsigned char stack[STACK];
    static ucontext_t here, there;
    size_t untouched = 0;
    memset(stack, PAINT, STACK);
    getcontext(&there);
    there.uc_stack.ss_sp = stack;
    there.uc_stack.ss_size = STACK;
    there.uc_link = &here;
    makecontext(&there, call, 0);
    swapcontext(&here, &there);
    while (untouched < STACK && stack[untouched] == PAINT)
        untouched++;
    return STACK - untouched;
}

int main(int count, char **arguments)
{
    static const struct {
        const char *name;
        void (*call)(void);
    } calls[CALLS] = {{"load", load}, {"archive", archive}, {"start", start}, {"run", run}};
    size_t most[CALLS] = {0};
    size_t empty = taken(none);
    for (int i = 1; i < count; i++) {
        FILE *file = fopen(arguments[i], "rb");
        if (file == NULL) {
            perror(arguments[i]);
            return 2;
        }
        length = fread(image, 1, MOST_BYTES, file);
        fclose(file);
        for (int k = 0; k < CALLS; k++) {
            size_t bytes = taken(calls[k].call) - empty;
            if (most[k] < bytes)
                most[k] = bytes;
        }
    }
    for (int k = 0; k < CALLS; k++)
        printf("stack of %-15s %6zu bytes\n", calls[k].name, most[k]);
    return 0;
}
