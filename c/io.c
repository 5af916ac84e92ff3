/* io.c: standard input and output, by the two calls of a Unix C library. They are declared here, since the
   toolchain's compiler comes without headers. */
#include "io.h"

extern long read(int file, void *bytes, size_t most);
extern long write(int file, const void *bytes, size_t count);

long io_read(uint8_t *bytes, size_t most)
{
    return read(0, bytes, most);
}

int io_write(const uint8_t *bytes, size_t count)
{
    while (count > 0) {
        long written = write(1, bytes, count);

        if (written <= 0)
            return -1;
        bytes += written;
        count -= (size_t)written;
    }
    return 0;
}
