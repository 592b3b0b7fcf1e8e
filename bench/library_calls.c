/* Calls the library on cases from standard input, each with five buffers, and writes what it gave. library_check.py compares it.
 *
 * A case is a line with two numbers, the lengths of its words and of its input, and then these bytes. For each it writes a line with the
 * status and the length of the text, and then the text. It ends with 1 where the calls with different buffers don't fit together.
 */
#include "kube_replay.h"
#include <stdio.h>
#include <stdlib.h>
#include <string.h>

enum { MARK = 0xa5 };

/* Memory of just this length, so that a tool for memory sees each access beyond it. */
static uint8_t *take(size_t length) {
    uint8_t *bytes = malloc(length ? length : 1);
    if (!bytes) {
        perror("library_calls");
        exit(2);
    }
    memset(bytes, MARK, length ? length : 1);
    return bytes;
}

static uint8_t *read_bytes(size_t length) {
    uint8_t *bytes = take(length);
    if (fread(bytes, 1, length, stdin) != length) {
        fputs("library_calls: a case is cut off\n", stderr);
        exit(2);
    }
    return bytes;
}

typedef struct {
    uint8_t *words, *input;
    size_t words_length, input_length;
} Case;

/* One call with room for so many bytes. The text has to begin as the one before does, where there is one. */
static uint8_t *call(const Case *each, size_t room, const uint8_t *text, uint32_t *status, size_t *whole) {
    uint8_t *buffer = take(room);
    size_t put = 0, i;
    *status = kube_replay_run(each->words, each->words_length, each->input, each->input_length, buffer, room, &put, whole);
    int fits = put == (room < *whole ? room : *whole) && (!text || !memcmp(buffer, text, put));
    for (i = put; i < room; i++)
        fits = fits && buffer[i] == MARK;
    if (!fits) {
        fprintf(stderr, "library_calls: with room for %zu bytes, put %zu of %zu\n", room, put, *whole);
        exit(1);
    }
    return buffer;
}

int main(void) {
    Case each;
    while (scanf("%zu %zu", &each.words_length, &each.input_length) == 2 && getchar() == '\n') {
        each.words = read_bytes(each.words_length);
        each.input = read_bytes(each.input_length);
        uint32_t status, again;
        size_t whole, other, k;
        free(call(&each, 0, NULL, &status, &whole));
        uint8_t *text = call(&each, whole, NULL, &again, &other);
        const size_t rooms[] = {whole + 1, whole ? whole - 1 : 0, 1};
        int same = again == status && other == whole;
        for (k = 0; k < sizeof rooms / sizeof *rooms; k++) {
            free(call(&each, rooms[k], text, &again, &other));
            same = same && again == status && other == whole;
        }
        if (!same) {
            fputs("library_calls: the status or the length depends on the buffer\n", stderr);
            return 1;
        }
        printf("%u %zu\n", status, whole);
        fwrite(text, 1, whole, stdout);
        free(text);
        free(each.words);
        free(each.input);
    }
    return 0;
}
