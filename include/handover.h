/*
 * handover.h: the handover checker for C.
 *
 * A static library without state, threads or allocation. Every function ends on every input, reads and writes nothing but the buffers
 * it is lent, and after a refusal leaves every lent byte and word as it was: this is proved, of the Rattle code, under the conditions
 * below.
 *
 * What the caller must see to, for nothing can check it:
 *   - A pointer points at as many elements as the length behind it says, and is aligned for its type. Lengths count elements, not bytes.
 *   - A list that is written (threads, markers, output) overlaps no other buffer of the call.
 *   - No other thread writes a buffer during the call.
 *   - The stack has 512 KiB to spare (docs/PERFORMANCE.md says what was measured).
 * With length 0 the pointer may be NULL; nothing is read through it.
 *
 * Refusals are numbered as in the scope paper and the requests that follow it: 1 to 12 the array, 13 to 21, 30 and 31 the table, 32 the
 * output, 22 the choice bytes, 23 the lent lists, 24 to 29 the step. Each has a place, 0 where none is named. handover(3) lists them.
 */
#ifndef HANDOVER_H
#define HANDOVER_H

#include <stddef.h>
#include <stdint.h>

#ifdef __cplusplus
extern "C" {
#endif

/* How many choice bytes a start, a step or a walk takes. Bit n (byte n / 8, weight 2^(n % 8)) takes choice node n to the right. */
#define HANDOVER_CHOICES 128

/*
 * Judges a table against its array.
 *
 * 0 means held: in every configuration that the array can reach, no name holds a channel that the table does not allow, no balance is
 * exceeded and no agent runs more often than claimed, nor the agents of a set together. Else the low 8 bits are the number of the first
 * broken rule (1 to 5), or 100 plus the number of the first refusal (1 to 21, 30, 31), and the place's figures follow: the first times
 * 2^8, the second times 2^24, the third times 2^40. A figure that the rule or refusal does not have is 0.
 */
uint64_t handover_check(const uint8_t *array, size_t array_len, const uint8_t *table, size_t table_len);

/*
 * Mends a table: writes it to the start of `output`, with the row bits set that rules 1 and 3 ask for and with its new word sum. All else
 * is copied as it came, and where no bit is missing the whole table is.
 *
 * The rows are the smallest that contain the given ones and meet both rules under the table's balances. So no check refuses the mended
 * table; of the rules it can break 2, 4 and 5 alone, and mending it once more sets no bit.
 *
 * The low 8 bits are 0, and 2^8 times the number of bits set follows (at most 65,536); or 100 plus the number of the first refusal, and
 * 2^8 times the place. Refusals 1 to 21, 30 and 31 as of handover_check, then 32 where `output` is shorter than the table. Bytes past the
 * table keep their content.
 */
uint64_t handover_mend(const uint8_t *array, size_t array_len, const uint8_t *table, size_t table_len, uint8_t *output,
                       size_t output_len);

/*
 * The three calls of the engine return a code in the low 8 bits:
 *   0    done (start, step) or quiet (walk: no ready pair is left)
 *   1    spent (walk: the allowed steps are made and a pair is ready)
 *   2    full (walk: the next step does not fit into the lists)
 *   100 + the refusal's number
 * plus 2^8 times the thread count, 2^18 times the marker count and 2^32 times the steps made (0 by a start, 1 by a step); after a refusal
 * 2^8 times the place alone.
 *
 * A thread takes 2 + N words of `threads`: its node, its marker's number, then for each of the N names 0 where it is not free in the
 * thread's agent, else 1 + 65536 * new + the number of the opening's marker. Marker 0 is empty; marker i takes four numbers of
 * `markers`, at entry i - 1: resource, out, and two marker numbers below i. At most 256 threads and 4096 markers fit, fewer if the lists
 * are shorter. Words past the used ones keep their content.
 */

/* Writes the start of the array under `choices` into `threads`. It uses no marker. Refusals 1 to 12, 22, 28. */
uint64_t handover_start(const uint8_t *array, size_t array_len, const uint8_t *choices, size_t choices_len, uint32_t *threads,
                        size_t threads_len);

/*
 * One step on lists with `thread_count` threads and `marker_count` markers: the thread at position `receiver` receives from the one at
 * `sender`, positions counted from 0. Refusals 1 to 12, 22 to 29.
 */
uint64_t handover_step(const uint8_t *array, size_t array_len, const uint8_t *choices, size_t choices_len, uint32_t *threads,
                       size_t threads_len, size_t thread_count, uint16_t *markers, size_t markers_len, size_t marker_count,
                       size_t receiver, size_t sender);

/* Steps of the first ready pair, again and again, at most `allowed`. Refusals 1 to 12, 22, 23. */
uint64_t handover_walk(const uint8_t *array, size_t array_len, const uint8_t *choices, size_t choices_len, uint32_t *threads,
                       size_t threads_len, size_t thread_count, uint16_t *markers, size_t markers_len, size_t marker_count,
                       uint32_t allowed);

/* The length of the array file's remark, which is its first bytes; 0 after a refusal. */
size_t handover_remark(const uint8_t *array, size_t array_len);

#ifdef __cplusplus
}
#endif

#endif
