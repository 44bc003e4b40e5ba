/* A shelf in memory: created, written, cut, started up again, read. */
#include "paritylocker.h"
#include <stdio.h>
#include <stdlib.h>
#include <string.h>

enum { K = 4, M = 2, N = 6, C = 1, SECTORS = 80, BYTES = N * SECTORS * 512 };
static uint8_t image[BYTES], block[512];
static uint8_t *state, *work;
#define SHELF image, BYTES, state, pl_state_bytes(), work, pl_work_bytes(N, C)

static void check(uint32_t refused) {
    if (refused) exit(printf("refused: %u\n", refused));
}

/* Carries the request out. On real disks: kind 1 writes that sector to its disk, kind 2 flushes it, before the next step. */
static void finish(void) {
    uint64_t did;
    do did = pl_step(SHELF); while (did % 256 == 1 || did % 256 == 2);
    if (did % 256 == 0) check(did / 256);
}

int main(void) {
    state = calloc(1, pl_state_bytes());
    work = calloc(1, pl_work_bytes(N, C));
    check(pl_create(K, M, C, SECTORS, 0x1122334455667788, SHELF));
    finish();

    memset(block, 'a', 512);
    check(pl_write(17, block, 512, SHELF));
    finish(); /* acknowledged */

    memset(block, 'b', 512);
    check(pl_write(17, block, 512, SHELF));
    for (int i = 0; i < 5; i++) pl_step(SHELF);
    /* The power goes: nothing is left but the image. Slots 1 and 2 are lost with it. */
    memset(state, 0, pl_state_bytes());
    check(pl_start(N, C, SECTORS, 6, SHELF));
    finish();

    check(pl_read(17, block, 512, SHELF));
    printf("block 17 is all %c\n", block[0]); /* a: the second write was not yet certain */
}
