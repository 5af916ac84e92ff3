/* io.h: what the programs here ask of the machine they run on. A bench with no operating system has its own io.c. */
#ifndef IO_H
#define IO_H

#include <stddef.h>
#include <stdint.h>

/* Reads up to `most` bytes of the script. Says how many; 0 at its end, less than 0 where it cannot be read. */
long io_read(uint8_t *bytes, size_t most);

/* Writes all the bytes. Says 0, or -1 where they cannot be written. */
int io_write(const uint8_t *bytes, size_t count);

#endif
