/* reading [--input CH=VALUE].. [--requests WORD] [--after N] FILE: the desk's reading of an image, in C: load, start, and runs of 1,000 steps
 * in all with W = 4,096 and outputs first 0. Inputs are 0 unless given; of two of a channel the last one holds. After N steps (0) without
 * requests it goes on with the word of requests (0), unless the program has stopped.
 * Prints the stop and the outputs, or `refused` and the number; where code is not whole, standard error says at which place. With a word
 * other than 0 a third line has what is left of it. Where the store tells of a caught trap, a further line has its number, process, module and
 * position. The last lines have the inputs that the reading rests on: those given, and those not given, which are a guess.
 * Its map is that of the largest image, so it reads every one that load accepts; the desk program's has 16,384 entries, and a longer image
 * that passes the earlier checks is refused with 7 there. examples/c/build builds it. */
#include <stdio.h>
#include <string.h>

#include "cembuxola.h"
#include "file.h"

#define WORDS 4096
#define STEPS 1000
/* One byte more than an image may have, so that a longer file is refused as such. */
#define MOST_BYTES 65536
/* One for each byte of the largest image. */
#define MOST_ENTRIES 65535
/* Places of the store: the process that a caught trap left, and the copies of the modules' bases. */
#define TRAP_OLD 15
#define BASES 32
/* The words of a process's record, and the one of them where a trap writes its number. */
#define RECORD_WORDS 8
#define TRAP_NUMBER 6

static uint8_t image[MOST_BYTES];
static uint32_t map[MOST_ENTRIES];
static uint16_t place[CEMBUXOLA_PLACE_WORDS];
static uint16_t store[WORDS];
static uint16_t machine[CEMBUXOLA_MACHINE_WORDS];
static uint16_t outputs[CEMBUXOLA_CHANNELS];
static uint16_t inputs[CEMBUXOLA_CHANNELS];
static uint32_t answer[CEMBUXOLA_ANSWER_NUMBERS];

static int refused(unsigned number)
{
    printf("refused %u\n", number);
    return 0;
}

static void say_place(const char *name)
{
    fprintf(stderr, "%s: refused %u: the code is not whole (module %u, position %u)\n", name, (unsigned)CEMBUXOLA_NOT_WHOLE,
            (unsigned)place[0], (unsigned)place[1]);
}

/* Steps that are done, what is left of the requests, and words of channels: those that were read, and those whose input is given. */
static uint32_t steps, requests, channels, given;

/* At most n steps more. What is left of the requests is kept for the next run; lines that are requested in between add their bits. The words
 * of channels are united. */
static unsigned run(size_t length, uint32_t n)
{
    unsigned number = cembuxola_run(machine, CEMBUXOLA_MACHINE_WORDS, image, length, map, MOST_ENTRIES, store, WORDS, outputs,
                                    CEMBUXOLA_CHANNELS, inputs, CEMBUXOLA_CHANNELS, answer, CEMBUXOLA_ANSWER_NUMBERS, n,
                                    (uint16_t)requests);
    steps += answer[0];
    requests = answer[2];
    channels |= answer[3];
    return number;
}

static void print_reading(unsigned number)
{
    printf("stop %u code %u steps %u module %u pc %u depth %u\n", number, (unsigned)answer[1], (unsigned)steps, (unsigned)machine[0],
           (unsigned)machine[1], (unsigned)machine[2]);
    for (int i = 0; i < CEMBUXOLA_CHANNELS; i++)
        printf(i == 0 ? "%u" : " %u", (unsigned)outputs[i]);
    printf("\n");
}

/* What the store tells of a caught trap: the process in word 15 has a trap's number in its word 6, and its G is the base of a module. Run does
 * not tell it. It is a reading of the store: what the program wrote over these words is not told otherwise. */
static void print_caught(void)
{
    unsigned process = store[TRAP_OLD], modules = image[0], module = 0;
    if (process == 0 || process + RECORD_WORDS > WORDS)
        return;
    const uint16_t *record = store + process;
    if (record[TRAP_NUMBER] < CEMBUXOLA_ADDRESS || record[TRAP_NUMBER] > CEMBUXOLA_PROGRAM)
        return;
    while (module < modules && store[BASES + module] != record[0])
        module++;
    if (module < modules)
        printf("caught %u process %u module %u pc %u\n", (unsigned)record[TRAP_NUMBER], process, module, (unsigned)record[2]);
}

/* The inputs of a word of channels, if it has any. */
static void print_inputs(const char *title, uint32_t word)
{
    if (word == 0)
        return;
    printf("%s:", title);
    for (int i = 0; i < CEMBUXOLA_CHANNELS; i++)
        if (word >> i & 1)
            printf(" %d=%u", i, (unsigned)inputs[i]);
    printf("\n");
}

/* What the reading rests on. Inputs outside the word of channels do not matter. */
static void print_rests_on(void)
{
    if (channels == 0)
        printf("rests on no inputs\n");
    print_inputs("rests on inputs given", channels & given);
    print_inputs("rests on a guess, inputs not given", channels & ~given);
}

static int read_and_run(const char *name, size_t length, uint32_t word, uint32_t after)
{
    unsigned number = cembuxola_load(image, length, map, MOST_ENTRIES, place, CEMBUXOLA_PLACE_WORDS);
    if (number == CEMBUXOLA_NOT_WHOLE)
        say_place(name);
    if (number != CEMBUXOLA_ACCEPTED)
        return refused(number);
    number = cembuxola_start(image, length, store, WORDS, machine, CEMBUXOLA_MACHINE_WORDS);
    if (number != CEMBUXOLA_ACCEPTED)
        return refused(number);
    number = run(length, after < STEPS ? after : STEPS);
    requests |= word;
    if (number == CEMBUXOLA_SPENT)
        number = run(length, STEPS - steps);
    if (number < CEMBUXOLA_SPENT)
        return refused(number);
    print_reading(number);
    if (word != 0)
        printf("requests %u\n", (unsigned)requests);
    print_caught();
    print_rests_on();
    return 0;
}

/* Whether the text up to its first `end` is a decimal number of at most `most`, which is written then. */
static int is_number(const char *text, char end, uint32_t most, uint32_t *number)
{
    uint64_t value = 0;
    int digits = 0;
    for (; text[digits] >= '0' && text[digits] <= '9' && value <= most; digits++)
        value = 10 * value + (uint64_t)(text[digits] - '0');
    *number = (uint32_t)value;
    return digits > 0 && text[digits] == end && value <= most;
}

/* Whether the text is CH=VALUE, which is kept then. */
static int is_input(const char *text)
{
    uint32_t channel, value;
    if (!is_number(text, '=', CEMBUXOLA_CHANNELS - 1, &channel) || !is_number(strchr(text, '=') + 1, '\0', UINT16_MAX, &value))
        return 0;
    inputs[channel] = (uint16_t)value;
    given |= UINT32_C(1) << channel;
    return 1;
}

/* Whether this is an option with a good value, which is kept then. */
static int is_option(const char *name, const char *value, uint32_t *word, uint32_t *after)
{
    if (strcmp(name, "--input") == 0)
        return is_input(value);
    if (strcmp(name, "--requests") == 0)
        return is_number(value, '\0', UINT16_MAX, word);
    return strcmp(name, "--after") == 0 && is_number(value, '\0', UINT32_MAX, after);
}

/* Whether the arguments are options with good values, and FILE behind them. */
static int arguments_are_good(int count, char **arguments, uint32_t *word, uint32_t *after)
{
    int i = 1;
    while (i + 2 < count && is_option(arguments[i], arguments[i + 1], word, after))
        i += 2;
    return i + 1 == count;
}

int main(int count, char **arguments)
{
    uint32_t word = 0, after = 0;
    if (!arguments_are_good(count, arguments, &word, &after)) {
        fprintf(stderr, "usage: reading [--input CH=VALUE].. [--requests WORD] [--after N] FILE\n");
        return 2;
    }
    const char *name = arguments[count - 1];
    long length = read_file(name, image, MOST_BYTES);
    if (length < 0)
        return 2;
    return read_and_run(name, (size_t)length, word, after);
}
