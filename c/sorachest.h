/* Sorachest for C: a relational database on the image of a NOR flash, which is in the caller's memory as a whole.
 * For a flash chip, which a firmware reads and programs in parts, use node/sorachest_node.h.
 *
 * The library keeps nothing between calls, allocates nothing, and never waits. Each call opens the database on the image,
 * does its work, and leaves the result in the image. It is proved what each call leaves and writes: see docs/PROMISES.md.
 * The proof trusts the caller to pass these:
 *
 *   image, image_length      the bytes of a flash: 4 to 4,095 sectors of 4,096 bytes; erased bytes are 0.
 *                            After the call they are the image of the changed database.
 *   script, script_length    AQL, each command ended by a `;` (docs/AQL.md). The bytes are only read.
 *   line, line_length        frames: a client's number, a command, the byte 0xc0 (docs/AQL.md). The bytes are only read.
 *   replies, room            memory for replies. The call fills the first `written` bytes, and appends no 0.
 *                            32 bytes are enough for a reply of one line; a row takes at most 280.
 *
 * Lengths are in bytes. No pointer may be NULL, even if its length is 0. The three pieces of memory must not overlap. They
 * need no alignment.
 *
 * A call takes less than 96 KiB of stack on a 64-bit processor. It needs memcpy, memmove and memset, and nothing else from
 * a C library. Calls on different images may run at the same time.
 */
#ifndef SORACHEST_H
#define SORACHEST_H

#ifdef SORACHEST_NODE_H
#error "sorachest.h and sorachest_node.h declare calls of the same names: include one of them"
#endif

#include <stddef.h>
#include <stdint.h>

/* The version of this header. */
#define SORACHEST_VERSION "0.5.0"

#ifdef __cplusplus
extern "C" {
#endif

/* How a call ended: the statuses of the program that can occur in memory. */
enum {
    SORACHEST_DONE = 0,          /* everything was done, and all replies were written */
    SORACHEST_NO_SPACE = 3,      /* the last reply is `no space N`; that command changed nothing, the rest was not carried out */
    SORACHEST_NO_ROOM = 5,       /* `replies` is full; the command whose reply was cut off was carried out, the rest was not */
    SORACHEST_NOT_SOUND = 6,     /* the reply is `no image RULE PLACE` (docs/FORMATS.md); the image is unchanged */
    SORACHEST_TOO_LONG = 8,      /* more than 16,777,216 bytes; the commands that are complete within these were carried out */
    SORACHEST_WRONG_LENGTH = 10  /* image_length is not 4 to 4,095 times 4,096; nothing was read or written */
};

struct sorachest_ended {
    uint8_t status;
    size_t written; /* bytes of replies, at most `room` */
};

/* Carries out a script, and writes a reply to each command. */
struct sorachest_ended sorachest_run(uint8_t *image, size_t image_length, const uint8_t *script, size_t script_length,
                                     uint8_t *replies, size_t room);

/* Answers the frames of up to four clients on one line, each with a frame. At the end all cursors are closed. */
struct sorachest_ended sorachest_serve(uint8_t *image, size_t image_length, const uint8_t *line, size_t line_length,
                                       uint8_t *replies, size_t room);

/* Writes the script that makes the database again. The image does not change. */
struct sorachest_ended sorachest_dump(uint8_t *image, size_t image_length, uint8_t *replies, size_t room);

/* Writes `sectors needed N present M` for 0 to 32,767 more rows in each relation. The image does not change. */
struct sorachest_ended sorachest_plan(uint8_t *image, size_t image_length, uint16_t rows, uint8_t *replies, size_t room);

/* Writes a line for each relation and each index, and one for the flash. The image does not change. */
struct sorachest_ended sorachest_look(uint8_t *image, size_t image_length, uint8_t *replies, size_t room);

/* Writes `sound`; or a line for each thing that sorachest_repair would change if the flash has room, and `to be repaired` as
 * the last line. Both return DONE. NOT_SOUND: no power cut leaves such an image. The image does not change. */
struct sorachest_ended sorachest_check(uint8_t *image, size_t image_length, uint8_t *replies, size_t room);

/* Repairs an image after a power cut. Writes `sound`; or a line for each thing that it changed, and `repaired`. TOO_LONG never
 * occurs. */
struct sorachest_ended sorachest_repair(uint8_t *image, size_t image_length, uint8_t *replies, size_t room);

/* Erases the sectors that hold only old data, and writes `sectors erased N`. The database stays. NO_SPACE and TOO_LONG never
 * occur. */
struct sorachest_ended sorachest_collect(uint8_t *image, size_t image_length, uint8_t *replies, size_t room);

#ifdef __cplusplus
}
#endif

#endif
