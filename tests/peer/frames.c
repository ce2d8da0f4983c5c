#include "frames.h"

#include <stdbool.h>

#include "read.h"

static bool pass_over(FILE *input, size_t count)
{
    uint8_t bytes[4096];
    while (count > 0) {
        size_t part = count < sizeof bytes ? count : sizeof bytes;
        if (fread(bytes, 1, part, input) != part)
            return false;
        count -= part;
    }
    return true;
}

enum frame_kind next_frame(FILE *input, uint8_t *file, size_t *length)
{
    uint8_t head[4];
    size_t came = fread(head, 1, sizeof head, input);
    if (came == 0)
        return FRAME_END;
    if (came < sizeof head)
        return FRAME_BROKEN;
    size_t announced = (size_t)head[0] << 24 | (size_t)head[1] << 16 | (size_t)head[2] << 8 | head[3];
    size_t kept = announced < FILE_BYTES_JUDGED ? announced : FILE_BYTES_JUDGED;
    if (fread(file, 1, kept, input) != kept || !pass_over(input, announced - kept))
        return FRAME_BROKEN;
    *length = kept;
    return FRAME_WHOLE;
}
