/* Paritylocker: the C interface of the proved library.
 *
 * Every function takes any value of every number. Of memory it is assumed, as nothing here can test it, that a pointer with a
 * length names that many bytes that are the caller's, and that a buffer that is written overlaps no other buffer of the call.
 * Link with crates/paritylocker_c/out/libparitylocker_c.a (made by `rt lib` in crates/paritylocker_c).
 */
#ifndef PARITYLOCKER_H
#define PARITYLOCKER_H

#include <stddef.h>
#include <stdint.h>

#ifdef __cplusplus
extern "C" {
#endif

/* ---- refusals of the parity layer */

#define PL_BAD_SHAPE 1u /* k, m or a shard length out of range, or a buffer that isn't exactly as long as its shards */
#define PL_TOO_MANY 2u  /* more than m shards missing */
#define PL_BAD_SHARD 3u /* a shard number that is k + m or more, or named twice */
#define PL_ZERO 4u      /* a division by the field's zero */

/* ---- the field of 256 elements, products modulo 0x11d */

/* The product, 0 to 255. */
uint32_t pl_mul(uint8_t a, uint8_t b);

/* The quotient, 0 to 255; 256 + PL_ZERO where b is 0. */
uint32_t pl_div(uint8_t a, uint8_t b);

/* ---- one stripe: k data shards and m parity shards of len bytes, one behind the other; shard r begins at r * len.
 * 2 <= k <= 16, 1 <= m <= 3, 1 <= len <= 4096, and stripe_len is exactly (k + m) * len; else PL_BAD_SHAPE. A refusal changes no
 * byte. Nothing but the stripe is ever written. */

#define PL_SOUND 256u   /* all equations hold */
#define PL_ACCUSED 512u /* + r: they would with another content of shard r alone (m >= 2) */
#define PL_UNSOUND 768u /* they don't hold, and no shard is accused: m = 1, or more than one is wrong */

/* The parity shards become those of the data shards, which stay. 0, or PL_BAD_SHAPE. */
uint32_t pl_encode(size_t k, size_t m, size_t len, uint8_t *stripe, size_t stripe_len);

/* Fills in the missing shards, `count` numbers of one byte each, from the others, which are read and never written; what stands in
 * the place of a missing shard doesn't matter. 0; PL_BAD_SHAPE; PL_TOO_MANY where count is more than m; PL_BAD_SHARD where a number
 * is k + m or more, or named twice. An empty list succeeds and changes nothing. Survivors that contradict each other are not
 * noticed: the result then goes by the k least of them, whatever the others hold and in whatever order the list stands. */
uint32_t pl_rebuild(size_t k, size_t m, size_t len, const uint8_t *missing, size_t count, uint8_t *stripe, size_t stripe_len);

/* PL_SOUND, PL_ACCUSED + r, PL_UNSOUND, or PL_BAD_SHAPE. Writes nothing. */
uint32_t pl_scrub(size_t k, size_t m, size_t len, const uint8_t *stripe, size_t stripe_len);

/* Answers as pl_scrub; after PL_ACCUSED + r shard r has the one content that makes the stripe sound. Otherwise nothing changes. */
uint32_t pl_repair(size_t k, size_t m, size_t len, uint8_t *stripe, size_t stripe_len);

/* ---- checksums and labels */

#define PL_BAD_IMAGE 10u /* a number out of range, or a size that isn't right */
#define PL_NO_LABEL 11u  /* no valid label */

/* CRC-32C: reflected, polynomial 0x82f63b78, start and final exclusive or 0xffffffff. */
uint32_t pl_crc32c(const uint8_t *bytes, size_t len);

/* Writes the label of these numbers, with its checksum, to a sector of 512 bytes. rebuilding is the slot being rebuilt, or 255.
 * 0; PL_BAD_IMAGE where a number is out of range or sector_len isn't 512, and nothing changes. */
uint32_t pl_label_encode(uint8_t k, uint8_t m, uint8_t slot, uint8_t c, uint32_t sectors, uint64_t shelf, uint64_t generation, uint32_t out,
                         uint8_t rebuilding, uint32_t mark, uint8_t *sector, size_t sector_len);

/* Reads a label of that slot from the sector that stands in that place (0 or 1). 0, with k, m, c, S, shelf, generation, out,
 * rebuilding, mark in fields[0 .. 9); PL_BAD_IMAGE where sector_len isn't 512 or count isn't 9; PL_NO_LABEL where it is no valid
 * label there. Where it isn't 0 nothing changes. */
uint32_t pl_label_decode(uint8_t slot, uint8_t place, const uint8_t *sector, size_t sector_len, uint64_t *fields, size_t count);

/* ---- the shelf: create, start up, take a slot out, rebuild a slot
 *
 * The image is n * S * 512 bytes: sector s of slot d at (d * S + s) * 512. The state is pl_state_bytes() bytes and the work area
 * pl_work_bytes(n, c), both the caller's; any content of them is taken. A request that answers 0 is under way; pl_step then does
 * its actions one by one, until it says that the request is done. A refusal changes nothing: image, state, work area. */

#define PL_TOO_FEW 12u    /* more than m slots absent, out or stale */
#define PL_BAD_BLOCK 13u  /* no such slot, block or stripe */
#define PL_BUSY 14u       /* another request is under way */
#define PL_NOT_NOW 15u    /* makes no sense in this state */
#define PL_BAD_BUFFER 16u /* a state, a work area or a block of another size */

/* The bytes of a state. */
size_t pl_state_bytes(void);

/* The bytes of the work area of a shelf of n slots and strips of c sectors; 0 where n or c is out of range. */
size_t pl_work_bytes(uint8_t n, uint8_t c);

/* Begins to create a shelf on an image of zeros, whatever the state holds. 0; PL_BAD_IMAGE where a number is out of range or the
 * image's length isn't right; PL_NOT_NOW where the image isn't zeros throughout; PL_BAD_BUFFER. */
uint32_t pl_create(uint8_t k, uint8_t m, uint8_t c, uint32_t sectors, uint64_t shelf, uint8_t *image, size_t image_len, uint8_t *state,
                   size_t state_len, uint8_t *work, size_t work_len);

/* Begins to start up, whatever the state holds; bit d of absent is set where slot d is absent. 0; PL_BAD_IMAGE; PL_NO_LABEL where a
 * present disk has no valid label or they don't agree with each other and with n, c and S; PL_TOO_FEW; PL_BAD_BLOCK where a bit of
 * absent is set at n or above; PL_NOT_NOW where no generation is left; PL_BAD_BUFFER. */
uint32_t pl_start(uint8_t n, uint8_t c, uint32_t sectors, uint64_t absent, uint8_t *image, size_t image_len, uint8_t *state,
                  size_t state_len, uint8_t *work, size_t work_len);

/* Begins to take a slot out. 0; PL_NOT_NOW where no shelf is started; PL_BAD_IMAGE; PL_NO_LABEL where a present disk's label isn't
 * the state's; PL_TOO_FEW where more than m would be out; PL_BAD_BLOCK; PL_BUSY; PL_NOT_NOW where it is absent, or out already, or no
 * generation is left; PL_BAD_BUFFER. */
uint32_t pl_take_out(uint32_t slot, uint8_t *image, size_t image_len, uint8_t *state, size_t state_len, uint8_t *work, size_t work_len);

/* The blocks: a block is c * 512 bytes. For these four a state of another size is PL_BAD_BUFFER at once, before all that follows. */

/* Begins to write a block; data is not needed after the call. 0; PL_NOT_NOW where no shelf is started; PL_BAD_IMAGE; PL_NO_LABEL where a
 * present disk's label isn't the state's; PL_TOO_FEW where more than m slots are missing; PL_BAD_BLOCK where there is no such block;
 * PL_BUSY; PL_NOT_NOW where no stamp is left; PL_BAD_BUFFER where data is no block, or for the work area. The work area holds the
 * stripe until the write is done: it is the caller's to keep. */
uint32_t pl_write(uint64_t block, const uint8_t *data, size_t data_len, uint8_t *image, size_t image_len, uint8_t *state, size_t state_len,
                  uint8_t *work, size_t work_len);

/* Reads a block to data, at once, whatever is missing. 0; PL_NOT_NOW where no shelf is started; PL_BAD_IMAGE; PL_TOO_FEW where more than m
 * slots are missing; PL_BAD_BLOCK; PL_NOT_NOW where create or start-up has not answered; PL_BAD_BUFFER where data is no block, or for the
 * work area. While a write is under way the block is as it was before it until the first put of its strips, which follows
 * the flush of its log, and as it will be from then on.
 * Nothing but data is written. */
uint32_t pl_read(uint64_t block, uint8_t *data, size_t data_len, const uint8_t *image, size_t image_len, const uint8_t *state,
                 size_t state_len, uint8_t *work, size_t work_len);

/* Scrubs a stripe, at once: PL_SOUND, PL_ACCUSED + r (shard r of the stripe, the parity shards from k on), PL_UNSOUND; PL_NOT_NOW where no
 * shelf is started; PL_BAD_IMAGE; PL_TOO_FEW; PL_BAD_BLOCK where there is no such stripe; PL_NOT_NOW where create or start-up has not
 * answered, or a slot is out or absent; PL_BAD_BUFFER. A write under way counts as for pl_read. Writes nothing. */
uint32_t pl_scrub_stripe(uint64_t stripe, uint8_t *image, size_t image_len, uint8_t *state, size_t state_len, uint8_t *work,
                         size_t work_len);

/* Begins to write the shard that a scrub of the stripe accuses, mended. 0; PL_NOT_NOW where no shelf is started; PL_BAD_IMAGE; PL_NO_LABEL
 * where a present disk's label isn't the state's; PL_TOO_FEW; PL_BAD_BLOCK where there is no such stripe; PL_BUSY; PL_NOT_NOW where a slot
 * is out or absent, no stamp is left, or no shard is accused; PL_BAD_BUFFER. */
uint32_t pl_repair_stripe(uint64_t stripe, uint8_t *image, size_t image_len, uint8_t *state, size_t state_len, uint8_t *work,
                          size_t work_len);

/* Begins the rebuild of a slot that is out or absent, or begins it again: its disk, which is present from now on, is readied and
 * called out, whatever it holds; its strips follow by pl_rebuild_on. 0; PL_NOT_NOW where no shelf is started; PL_BAD_IMAGE;
 * PL_NO_LABEL where a present disk's label isn't the state's; PL_TOO_FEW where more than m are out or absent; PL_BAD_BLOCK; PL_BUSY;
 * PL_NOT_NOW where the slot is neither out nor absent, or another is being rebuilt, or no generation is left; PL_BAD_BUFFER. */
uint32_t pl_begin(uint32_t slot, uint8_t *image, size_t image_len, uint8_t *state, size_t state_len, uint8_t *work, size_t work_len);

/* Begins to rebuild the next strips of the slot being rebuilt, from the other strips of their stripes: batch of them, where that many
 * are left (0 means 1). The last strip heals the slot; where all are rebuilt already a flush and the label do. 0; PL_NOT_NOW where no shelf is started; PL_BAD_IMAGE; PL_NO_LABEL; PL_TOO_FEW;
 * PL_BUSY; PL_NOT_NOW where no slot is being rebuilt, or it is absent, or no generation is left; PL_BAD_BUFFER. */
uint32_t pl_rebuild_on(uint32_t batch, uint8_t *image, size_t image_len, uint8_t *state, size_t state_len, uint8_t *work, size_t work_len);

/* Does the next action of the request under way and answers kind + 256 * slot + 65536 * sector. Kind 0: refused, with the code in
 * slot's place (PL_NOT_NOW with nothing under way, PL_BAD_IMAGE, PL_BAD_BUFFER); 1: that sector was put, write it to its disk;
 * 2: flush that slot's disk now, before the next step; 3: the request is done; 4: it is done, and the slot that was rebuilt is healthy.
 * After pl_rebuild_on, 3 and 4 have 1 in slot's place where the survivors of a stripe contradicted each other, else 0, and in
 * sector's place the mark that is reached: so many strips of the slot, from the first, are rebuilt.
 * After every other request 3 has 0 in both places. At most one sector changes, of a slot that isn't absent. */
uint64_t pl_step(uint8_t *image, size_t image_len, uint8_t *state, size_t state_len, uint8_t *work, size_t work_len);

/* 0, with ready (1 when create or start-up has answered, else 0), k, m, c, S, shelf, generation, out, absent, slot being rebuilt or
 * 255, mark in fields[0 .. 11); PL_NOT_NOW with no shelf; PL_BAD_BUFFER where a size is wrong. */
uint32_t pl_status(const uint8_t *state, size_t state_len, uint64_t *fields, size_t count);

#ifdef __cplusplus
}
#endif

#endif
