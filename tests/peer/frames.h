// Standard input as a row of frames: a length in four bytes, high byte first, and then that
// many bytes of a file.
#ifndef PEER_FRAMES_H
#define PEER_FRAMES_H

#include <stddef.h>
#include <stdint.h>
#include <stdio.h>

enum frame_kind { FRAME_WHOLE, FRAME_BROKEN, FRAME_END };

// Reads the next frame. `file` holds FILE_BYTES_JUDGED bytes; bytes of the frame past them
// are passed over, and the frame is broken if those do not all come.
enum frame_kind next_frame(FILE *input, uint8_t *file, size_t *length);

#endif
