/* The class of an Ethernet frame, for the port card's firmware. Link with libframe.a. */
#ifndef YAMCHOK_FRAME_CLASS_H
#define YAMCHOK_FRAME_CLASS_H

#include <stddef.h>
#include <stdint.h>

#ifdef __cplusplus
extern "C" {
#endif

/* What frame_class answers. */
enum yamchok_class {
    YAMCHOK_BEST_EFFORT = 0,
    YAMCHOK_RESERVED = 1,
    YAMCHOK_CLOCK = 2,
    YAMCHOK_TIME_SENSITIVE = 3,
    YAMCHOK_NO_FRAME = 255
};

/* The class of the frame of `length` bytes at `bytes`, without preamble and check sequence,
 * or YAMCHOK_NO_FRAME where it has under 60 or over 1,518 bytes.
 * `bytes` points to that many readable bytes and is not null. Nothing is kept or written. */
uint8_t frame_class(const uint8_t *bytes, size_t length);

#ifdef __cplusplus
}
#endif

#endif
