/* SPDX-License-Identifier: Apache-2.0 */
#include "kube_replay.h"
#include <stdio.h>

int main(void) {
    const char words[] = "replay", input[] = "{\"version\":1,\"settings\":{\"endBeat\":60},\"controllers\":[{\"name\":\"c1\"}]}";
    uint8_t text[4096];
    size_t put, whole;
    uint32_t status = kube_replay_run((const uint8_t *)words, sizeof words - 1, (const uint8_t *)input, sizeof input - 1, text, sizeof text,
                                      &put, &whole);
    fwrite(text, 1, put, stdout);
    return status == KUBE_REPLAY_DONE && put == whole ? 0 : 1;
}
