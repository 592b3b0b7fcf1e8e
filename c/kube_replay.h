/* SPDX-License-Identifier: Apache-2.0 */
/* kube_replay as a library: one call, for C and for what calls C.
 *
 * What it does, and the bytes that it writes, are those of the program `kube_replay` with the same words and the same standard input.
 * docs/library.md has a program of ten lines, and says what is proved.
 *
 * Build: tools/shared-library makes c/libkube_replay.so. The Python package looks for the shared library in this order: the file that
 * the environment variable KUBE_REPLAY_LIBRARY names; libkube_replay.so in the package's own folder; c/libkube_replay.so of the checkout
 * that the package lies in; libkube_replay.so where the system's loader finds it.
 */
#ifndef KUBE_REPLAY_H
#define KUBE_REPLAY_H

#include <stddef.h>
#include <stdint.h>

#ifdef __cplusplus
extern "C" {
#endif

/* What kube_replay_run answers: the exit statuses of the program. */
enum {
    KUBE_REPLAY_DONE = 0,          /* the whole text was written */
    KUBE_REPLAY_REFUSED = 1,       /* the input is refused: the text is the line `refused CODE PATH` */
    KUBE_REPLAY_USAGE = 2,         /* the words are no command: the text is the line on the usage */
    KUBE_REPLAY_SOURCE_FAULT = 3,  /* never answered: input in memory doesn't fail */
    KUBE_REPLAY_SINK_FAULT = 4,    /* never answered: a buffer without room is no fault */
    KUBE_REPLAY_OUT_OF_MEMORY = 5, /* malloc found no memory: the text is a prefix of the one that there would be */
    KUBE_REPLAY_BAD_WORDS = 6      /* the words aren't UTF-8: the text is empty, and the input isn't read */
};

/* Does what the words say with the input, and puts the first bytes of the text into the buffer.
 *
 * words   the words after the program's name as one text with a single space between two, such as "replay", "check" or "state 600". No
 *         zero byte ends it. Between two spaces, before the first, behind the last and in an empty text stands an empty word, which is part
 *         of no command: KUBE_REPLAY_USAGE.
 * input   what the program would read from its standard input. `generate` and words that are no command don't read it.
 * buffer  where the text goes. Bytes behind the last one put stay as they are.
 * put     gets the number of bytes that were put into the buffer: the less of `room` and `*whole`.
 * whole   gets the number of bytes of the whole text. Where it is more than `room`, the buffer has the first `room` bytes; a second call
 *         with a buffer of `*whole` bytes has them all.
 *
 * What the caller owes:
 * - None of the five pointers is NULL, also where a length is 0. (Any other address will do then.)
 * - words_length, input_length and room bytes are there behind words, input and buffer, none of them more than PTRDIFF_MAX.
 * - buffer, *put and *whole overlap neither each other nor words and input. `words` and `input` are only read, and may overlap.
 * - During the call no other thread writes to words or input, or touches buffer, *put or *whole.
 *
 * It keeps no state: calls in several threads at once are fine, each with a buffer and numbers of its own. The text goes straight into
 * the buffer, and what has no room there is only counted. All memory that it takes is freed before it returns. It takes it by the program's malloc, realloc and free,
 * which must come from one allocator, with blocks aligned for every power of two up to 16 that divides their size. It isn't to be called
 * from a signal handler, nor in the forked child of a process with threads. It starts no thread, opens no file, and reads no clock.
 */
uint32_t kube_replay_run(const uint8_t *words, size_t words_length, const uint8_t *input, size_t input_length, uint8_t *buffer, size_t room,
                         size_t *put, size_t *whole);

#ifdef __cplusplus
}
#endif

#endif
