/* Prints what `mdmp list` prints of a dump with one list of regions, modules or memory ranges: reference FILE
 *
 * It shows how near the proved program is to what the machine can do. It trusts the file: no number is tested, and a
 * bad file makes it crash. bench/list and bench/instructions build it by `cc -O3`, and compare its output. */
#include <fcntl.h>
#include <stdint.h>
#include <string.h>
#include <sys/mman.h>
#include <sys/stat.h>
#include <unistd.h>

#define ROOM 65536
#define LINE 1024 /* more than a line without its name takes */

static char block[ROOM + LINE];
static char *out = block;
static const uint8_t *file;

static void flush(void) {
    for (char *at = block; at < out;) {
        ssize_t count = write(1, at, (size_t)(out - at));
        if (count <= 0) _exit(3);
        at += count;
    }
    out = block;
}

/* Numbers of the file, which has no alignment. */
static uint32_t u32(const uint8_t *at) { uint32_t n; memcpy(&n, at, 4); return n; }
static uint64_t u64(const uint8_t *at) { uint64_t n; memcpy(&n, at, 8); return n; }

#define TEXT(text) (memcpy(out, text, sizeof text - 1), out += sizeof text - 1)

static void decimal(uint64_t n) {
    char digits[20], *at = digits + 20;
    do *--at = (char)('0' + n % 10); while (n /= 10);
    size_t count = (size_t)(digits + 20 - at);
    memcpy(out, at, count);
    out += count;
}

static void hex(uint64_t n, int digits) {
    for (int at = digits - 1; at >= 0; at--, n >>= 4) out[at] = "0123456789abcdef"[n & 15];
    out += digits;
}

static void address(uint64_t n) { TEXT("0x"); hex(n, 16); }

static void location(uint64_t size, uint64_t offset) {
    if (size == 0) { TEXT("empty"); return; }
    TEXT("inside "); decimal(size); TEXT("@"); decimal(offset);
}

/* The units of a name, which are plain ASCII but for what has to be escaped. */
static void name(uint32_t rva) {
    uint32_t units = u32(file + rva) / 2;
    TEXT(" name \"");
    for (const uint8_t *at = file + rva + 4; units > 0; units--, at += 2) {
        if (*at == '\\' || *at == '"') *out++ = '\\';
        *out++ = (char)*at;
        if (out - block >= ROOM) flush();
    }
    TEXT("\"");
}

/* MINIDUMP_MEMORY_INFO_LIST */
static void regions(const uint8_t *at) {
    uint64_t count = u64(at + 8);
    at += u32(at);
    for (uint64_t k = 0; k < count; k++, at += 48) {
        TEXT("region "); decimal(k); TEXT(" base "); address(u64(at)); TEXT(" allocation "); address(u64(at + 8));
        TEXT(" initial "); decimal(u32(at + 16)); TEXT(" size "); decimal(u64(at + 24));
        TEXT(" state "); decimal(u32(at + 32)); TEXT(" protect "); decimal(u32(at + 36));
        TEXT(" type "); decimal(u32(at + 40)); TEXT("\n");
        if (out - block >= ROOM) flush();
    }
}

/* MINIDUMP_MODULE_LIST */
static void modules(const uint8_t *at) {
    uint32_t count = u32(at);
    at += 4;
    for (uint32_t k = 0; k < count; k++, at += 108) {
        TEXT("module "); decimal(k); TEXT(" base "); address(u64(at)); TEXT(" size "); decimal(u32(at + 8));
        TEXT(" checksum "); decimal(u32(at + 12)); TEXT(" time "); decimal(u32(at + 16));
        TEXT(" version "); decimal(u32(at + 32) >> 16); TEXT("."); decimal(u32(at + 32) & 65535);
        TEXT("."); decimal(u32(at + 36) >> 16); TEXT("."); decimal(u32(at + 36) & 65535);
        TEXT(" cv "); location(u32(at + 76), u32(at + 80)); TEXT(" misc "); location(u32(at + 84), u32(at + 88));
        name(u32(at + 20)); TEXT("\n");
        if (out - block >= ROOM) flush();
    }
}

/* MINIDUMP_MEMORY64_LIST */
static void ranges(const uint8_t *at) {
    uint64_t count = u64(at), offset = u64(at + 8);
    at += 16;
    for (uint64_t k = 0; k < count; k++, at += 16) {
        TEXT("range "); decimal(k); TEXT(" start "); address(u64(at)); TEXT(" ");
        location(u64(at + 8), offset); TEXT("\n");
        offset += u64(at + 8);
        if (out - block >= ROOM) flush();
    }
}

int main(int argc, char **argv) {
    struct stat found;
    int opened = argc == 2 ? open(argv[1], O_RDONLY) : -1;
    if (opened < 0 || fstat(opened, &found)) return 2;
    file = mmap(0, (size_t)found.st_size, PROT_READ, MAP_PRIVATE, opened, 0);
    if (file == MAP_FAILED) return 3;
    uint32_t entries = u32(file + 8), directory = u32(file + 12);
    TEXT("dump version 0x"); hex(u32(file + 4) >> 16, 4); TEXT(" streams "); decimal(entries);
    TEXT(" directory "); decimal(directory); TEXT(" checksum "); decimal(u32(file + 16));
    TEXT(" time "); decimal(u32(file + 20)); TEXT(" flags "); address(u64(file + 24)); TEXT("\n");
    for (uint32_t e = 0; e < entries; e++) {
        const uint8_t *entry = file + directory + 12 * e, *stream = file + u32(entry + 8);
        TEXT("stream "); decimal(e); TEXT(" type "); decimal(u32(entry)); TEXT(" size "); decimal(u32(entry + 4));
        TEXT(" rva "); decimal(u32(entry + 8)); TEXT("\n");
        switch (u32(entry)) {
        case 4: modules(stream); break;
        case 9: ranges(stream); break;
        case 16: regions(stream); break;
        }
    }
    flush();
    return 0;
}
