/* A small dump: one entry, a system with the name of its service pack. */
#ifndef SMALL_H
#define SMALL_H

#include <stdint.h>

static const uint8_t SYSTEM[136] =
    "MDMP\x93\xa7\0\0\x01\0\0\0\x20\0\0\0\0\0\0\0\0\0\0\0\0\0\0\0\0\0\0\0"
    "\x07\0\0\0\x38\0\0\0\x2c\0\0\0"
    "\x09\0\x06\0\x03\0\x04\x01\x06\0\0\0\x01\0\0\0\xb1\x1d\0\0\x02\0\0\0\x64\0\0\0\0\x01\0\0"
    "\0\0\0\0\0\0\0\0\0\0\0\0\0\0\0\0\0\0\0\0\0\0\0\0"
    "\x1c\0\0\0S\0e\0r\0v\0i\0c\0e\0 \0P\0a\0c\0k\0 \0001\0\0\0\0";

#define FILE_OF(bytes) (bytes), sizeof(bytes)

#endif
