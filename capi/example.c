/* The safety code of the byte 01 under the word 0, and the rehearsal of the files `sheet` and
 * `script` in the current folder. */
#include "falldate.h"

#include <stdio.h>

static size_t slurp(const char *name, uint8_t *bytes, size_t most)
{
    FILE *file = fopen(name, "rb");
    size_t len = file ? fread(bytes, 1, most, file) : 0;
    if (file)
        fclose(file);
    return len;
}

int main(void)
{
    static uint8_t sheet[4096], script[65536], out[65536];
    uint64_t code = falldate_safety_code(0, (const uint8_t *)"\x01", 1);
    printf("%08X %08X\n", (unsigned)(code >> 32), (unsigned)code);
    int64_t len = falldate_rehearse(sheet, slurp("sheet", sheet, sizeof sheet),
                                    script, slurp("script", script, sizeof script),
                                    out, sizeof out);
    if (len < 0)
        return 1;
    fwrite(out, 1, (size_t)len, stdout);
    return 0;
}
