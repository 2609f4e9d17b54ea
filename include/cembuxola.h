/* Cembuxola, a proved M-code engine, for C.
 *
 * Link with target/staticlib/libcapi.a, which `bin/build capi` writes (x86-64). The functions allocate nothing, keep nothing
 * between calls and write only to the buffers named below, so any number of machines may run side by side, in threads too.
 * Of the stack, load takes about 71 KB, archive 72 KB, start 5 KB and run 7 KB (measured: bench/size, docs/PERFORMANCE.md).
 *
 * Each buffer passes as a pointer, then its length in ELEMENTS: bytes of an image or a form, entries of a map, words of a place, a store, a
 * machine, inputs or outputs, numbers of an answer or of what is written. The caller keeps these rules, which no function can test:
 *   - a pointer is not NULL, also where the length is 0, is aligned for its elements (a map's as a uint32_t), and that many elements stand
 *     there;
 *   - a buffer that a function writes overlaps no other buffer of the call, and nobody else reads or writes it meanwhile;
 *   - nobody writes a buffer that a function reads meanwhile.
 * Every content and every length is answered with a number: nothing else is asked of the caller. What each function answers, and what
 * it leaves in every buffer, is proved equal to what the definition says (crates/capi/specs, crates/mcode/specs).
 *
 * A map has one entry for each byte of the image: 4 bytes of memory an image byte, 262,140 bytes for the largest image. An entry is a
 * mark where an instruction begins that can be reached:
 *   bits 0-4    depth, the words on the expression stack before the instruction, 0 to 16
 *   bits 5-7    results of the procedure that the instruction belongs to, 0 to 4
 *   bits 8-10   how many saved depths follow, 0 to 4: each the number of words that a STORE has saved and a LODFW is yet to restore
 *   bits 11-15  the first of them, that of the last STORE, 0 to 16
 *   bits 16-20  the second, of the STORE before it; bits 21-25 the third, bits 26-30 the fourth
 * Unused bits are 0, bit 31 too. FFFFFFFF hex is unmarked. An entry of any other form fits nowhere.
 *
 * The place of a load is CEMBUXOLA_PLACE_WORDS words:
 *   word 0      module, the first one that is not whole
 *   word 1      position, the lowest one at fault in that module's code, in bytes
 * Both are 0 in every answer but 13.
 *
 * The archive form of an image that load accepts is the image of the same modules whose bits stand only for a data size other than 0,
 * procedures other than the single default one, and a name other than zeros. The single default one is a list of exactly one procedure,
 * entry 0, no parameters, no results, spelled out or not. The form is never longer than the image, loads with the same modules, and is its
 * own form. Two images have the same form exactly when their modules are equal in order: data size, procedures, name and code.
 *
 * The machine is CEMBUXOLA_MACHINE_WORDS words:
 *   word 0      module, where the machine stands
 *   word 1      pc, the position in that module's code, in bytes
 *   word 2      depth, the words on the expression stack, 0 to 16
 *   word 3      P, the process register
 *   word 4      L, the local frame
 *   word 5      S, the stack pointer
 *   word 6      H, the stack limit
 *   word 7      M, the mask
 *   words 8-23  the expression stack, the bottom first; zeros above the depth
 *
 * The answer of a run is CEMBUXOLA_ANSWER_NUMBERS numbers:
 *   number 0    count, the steps that were done, caught traps among them; the stopping instruction is not counted
 *   number 1    code, the program's own code (0 to 65,535) at stop 40, else 0
 *   number 2    requests, what is left of the word of requests (0 to 65,535)
 *   number 3    channels, the word of the input channels that the run's READs took (0 to 65,535): bit i stands exactly when a completed READ
 *               took input i
 * A refused run answers count 0, code 0, the requests as given and channels 0.
 *
 * The word of requests says which lines are requested. Lines are 8 to 15; bit i has weight 2^i and is line i. Before an instruction, the
 * highest line is taken that is in the requests, not in M and not in store word 3; one that M or word 3 has waits. A line transfers to the
 * process that store word 2i names and writes the one that it interrupts to word 2i + 1, so that a TRANSFER can go back to it: it goes on
 * with the instruction that was about to run, its whole expression stack as it was. Where word 2i names the process that runs, only word
 * 2i + 1 is written. Either counts as a step and clears the bit. Where there is no process to transfer to, the run stops with 35 and the bit
 * is kept: start leaves zeros in these words, so the program must have written its word 2i before line i is requested. Bits 0 to 7 are
 * ignored and returned as given. Pass 0 where no line is used.
 *
 * The word of channels says which inputs a run rests on, whatever it stops with. A READ that gives trap 32 or 39 sets no bit, also where
 * the trap is caught, nor does one of an earlier run. Of 16 inputs those outside the word do not matter: any run with the same other
 * arguments and 16 inputs that agree on the word's channels gives the same answer and leaves the same. What runs one after another rest on
 * is their words united: channels |= answer[3].
 *
 * Store word 14 names the trap process. Where it is not 0 and not P, a trap 32 to 40 is caught: it writes its number to word P + 6, then
 * transfers as a line does, with words 14 and 15, and the run goes on. The process that trapped is in word 15, its position that of the
 * trapping instruction, its whole expression stack saved; M is that of the trap process. This counts as a step. A line's failed transfer is
 * caught too: the position is the instruction about to run, and the bit is kept. Where the transfer to the trap process would itself fail,
 * the run stops with the first trap and nothing is changed. The answer does not tell of a caught trap: its number is in word P + 6 of the
 * process in word 15, as long as nothing is written over it, and the code of 40 is lost. start leaves 0 in word 14: every trap stops the
 * run until the program has written it.
 */
#ifndef CEMBUXOLA_H
#define CEMBUXOLA_H

#include <stddef.h>
#include <stdint.h>

#ifdef __cplusplus
extern "C" {
#endif

#define CEMBUXOLA_PLACE_WORDS 2
#define CEMBUXOLA_MACHINE_WORDS 24
#define CEMBUXOLA_ANSWER_NUMBERS 4
#define CEMBUXOLA_WRITTEN_NUMBERS 1
/* The most modules of an image. */
#define CEMBUXOLA_MOST_MODULES 21
/* The inputs and the outputs of a run. */
#define CEMBUXOLA_CHANNELS 16

/* What load, archive and start answer where they accept. */
#define CEMBUXOLA_ACCEPTED 0

/* Refusals. Load, archive, start and run each read the image first, so any of them may answer 1 to 6. Of those that hold, the first in
 * this order is answered: 1, 2, then 3, 5 and 6 as the image is read, 4; then load 7, 13, 8; archive 7, 13, 8, 14; start 9; run 7, 12, 9,
 * 10, 11. */
enum {
    CEMBUXOLA_IMAGE_SIZE = 1,     /* the image has 0 or over 65,535 bytes */
    CEMBUXOLA_MODULE_COUNT = 2,   /* the module count is 0 or over CEMBUXOLA_MOST_MODULES */
    CEMBUXOLA_IMAGE_ENDS = 3,     /* the image ends inside a part */
    CEMBUXOLA_BYTES_AFTER = 4,    /* bytes follow the last module */
    CEMBUXOLA_BIT_MAP = 5,        /* one of the bits 3 to 7 of a bit map stands */
    CEMBUXOLA_FIELD = 6,          /* a field is out of range */
    CEMBUXOLA_MAP_SHORT = 7,      /* the map has fewer entries than the image has bytes */
    CEMBUXOLA_NO_DEPTHS = 8,      /* the code is whole and no depths fit */
    CEMBUXOLA_STORE_SIZE = 9,     /* the store has too few words for the image, or over 65,535 */
    CEMBUXOLA_CHANNEL_COUNT = 10, /* the inputs or the outputs are not 16 words */
    CEMBUXOLA_NOT_A_MACHINE = 11, /* the words are no machine that can stand there */
    CEMBUXOLA_MAP_UNFIT = 12,     /* the map does not fit the image */
    CEMBUXOLA_NOT_WHOLE = 13,     /* the code is not whole: a position reached from the entries without regard to depth has an
                                   * unlisted opcode, operands outside the code, a missing module or procedure, or a successor
                                   * outside the code */
    CEMBUXOLA_OUTPUT_SHORT = 14,  /* out is shorter than the form */
    CEMBUXOLA_WRONG_LENGTH = 20   /* the place is not 2 words, the machine not 24, the answer not 4 numbers, or written not 1 number;
                                   * tested before all else */
};

/* Stops. A trap and an end leave everything as it was before their instruction, at which the machine stands; so does a line whose
 * transfer fails. A trap that is caught is no stop. */
enum {
    CEMBUXOLA_SPENT = 30,        /* all n steps are done */
    CEMBUXOLA_ENDED = 31,        /* the program has ended */
    CEMBUXOLA_ADDRESS = 32,      /* trap: an address not below the store's length */
    CEMBUXOLA_STACK_LIMIT = 33,  /* trap: the stack would pass H */
    CEMBUXOLA_RETURN_MARK = 34,  /* trap: no place to return to, or no saved words to restore */
    CEMBUXOLA_PROCESS = 35,      /* trap: no process to transfer to, by TRANSFER or by a line */
    CEMBUXOLA_DIVISOR = 36,      /* trap: a divisor of 0 */
    CEMBUXOLA_RESULT_RANGE = 37, /* trap: a result that no word holds: signed outside -32,768 to 32,767, unsigned outside 0 to 65,535 */
    CEMBUXOLA_CHECK = 38,        /* trap: a value outside its limits */
    CEMBUXOLA_CHANNEL = 39,      /* trap: a channel above 15 */
    CEMBUXOLA_PROGRAM = 40       /* trap by the program, with its code */
};

/* Tests an image and fills its map: a mark at each position that can be reached, unmarked elsewhere. Answers 0, or a refusal 1 to 8, 13
 * or 20.
 *   image  read
 *   map    as many entries as the image has bytes, or more. 0: so many are filled. 13 and 8: so many are unmarked. Every other refusal
 *          leaves it as it was. Entries past the image's length are never written.
 *   place  CEMBUXOLA_PLACE_WORDS words, written: module and position at 13, else 0 and 0. 20 leaves them as they were. */
uint16_t cembuxola_load(const uint8_t *image, size_t image_length, uint32_t *map, size_t map_length, uint16_t *place,
                        size_t place_length);

/* Writes the archive form of an image. Answers 0, or a refusal 1 to 8, 13, 14 or 20: load's first, in load's order, without a place for 13.
 *   image    read
 *   map      as many entries as the image has bytes, or more. It is left exactly as load leaves it, filled at 0 and at 14. 20 leaves it as
 *            it was.
 *   out      0: the form's bytes, and all past them as it was. Every refusal leaves all of it as it was. As many bytes as the image has
 *            always suffice. It must not overlap the image.
 *   written  CEMBUXOLA_WRITTEN_NUMBERS number, written: the form's length at 0, else 0. 20 leaves it as it was. */
uint16_t cembuxola_archive(const uint8_t *image, size_t image_length, uint32_t *map, size_t map_length, uint8_t *out, size_t out_length,
                           uint32_t *written, size_t written_length);

/* Clears the store and makes the machine that stands at procedure 0 of module 0. Answers 0, or a refusal 1 to 6, 9 or 20.
 *   image    read
 *   store    W words, of the caller's choice. 0: cleared and set. Every refusal leaves it as it was.
 *   machine  CEMBUXOLA_MACHINE_WORDS words, written: the machine at 0, zeros at 1 to 6 and 9. 20 leaves it as it was. */
uint16_t cembuxola_start(const uint8_t *image, size_t image_length, uint16_t *store, size_t store_length, uint16_t *machine,
                         size_t machine_length);

/* Makes at most n steps. Answers a stop 30 to 40, or a refusal 1 to 7, 9 to 12 or 20. It believes nothing that it is handed: the image,
 * the map and the machine are tested in every call. A trap stops it only where store word 14 is 0 or P or names no process to transfer to,
 * as said above; a caught one is a step of the count, and its number is in word P + 6 of the process in word 15.
 *   machine  CEMBUXOLA_MACHINE_WORDS words, from start or from an earlier run. A stop: the machine where it stopped. Every refusal
 *            leaves it as it was. A module above 255 is no loaded module, as is any that the image does not have (11).
 *   image    read
 *   map      read; load's, or another that fits
 *   store    read and written. Every refusal leaves it as it was.
 *   outputs  CEMBUXOLA_CHANNELS words, the current value of each output. Every refusal leaves them as they were.
 *   inputs   CEMBUXOLA_CHANNELS words, read
 *   answer   CEMBUXOLA_ANSWER_NUMBERS numbers, written: count, code, requests and channels. 20 leaves them as they were.
 *   n        the most steps, 0 to 4,294,967,295
 *   requests the lines that are requested, as said above; 0 where no line is used. The next run gets the word that is left, with the bits
 *            of the lines requested since: (uint16_t)(answer[2] | since). */
uint16_t cembuxola_run(uint16_t *machine, size_t machine_length, const uint8_t *image, size_t image_length, const uint32_t *map,
                       size_t map_length, uint16_t *store, size_t store_length, uint16_t *outputs, size_t outputs_length,
                       const uint16_t *inputs, size_t inputs_length, uint32_t *answer, size_t answer_length, uint32_t n,
                       uint16_t requests);

#ifdef __cplusplus
}
#endif

#endif
