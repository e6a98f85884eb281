/* The least work any checker does: look at each byte, write 16 bytes for each operator. */
#include <stddef.h>
#include <stdint.h>
#include <string.h>

enum { NONE, SPACE, VALUE, ATTRIBUTE, OPERATOR, DATA };

static const uint8_t class_of[256] = {
    [0x00] = SPACE, [0x09 ... 0x0d] = SPACE, [0x20] = SPACE,
    [0x41 ... 0xbf] = OPERATOR,
    [0xc0 ... 0xc5] = VALUE, [0xc8 ... 0xcd] = VALUE, [0xd0 ... 0xd5] = VALUE, [0xe0 ... 0xe5] = VALUE,
    [0xf8 ... 0xf9] = ATTRIBUTE,
    [0xfa ... 0xfb] = DATA,
};

size_t bare_loop(const uint8_t *job, size_t job_len, uint8_t *list, size_t list_len) {
    size_t at = 0, records = 0;
    uint16_t given = 0;
    for (size_t i = 0; i < job_len; i++) {
        uint8_t kind = class_of[job[i]];
        if (kind == ATTRIBUTE) {
            given++;
        } else if (kind == OPERATOR) {
            if (list_len - at < 16)
                break;
            uint32_t words[4] = {2u | (uint32_t)job[i] << 8 | (uint32_t)given << 16, (uint32_t)i, 0, 0};
            memcpy(list + at, words, 16);
            at += 16;
            records++;
            given = 0;
        }
    }
    return records;
}
