/* A plain C reading of the disk in the file cvm.disk: the measure of how long its sectors take to be read. Each of 65,536 sectors is
 * sought, read by one call and made words of 32 bits, the least byte first, as the program's adapter does; the sum of all words is
 * printed.
 */
#define _FILE_OFFSET_BITS 64
#include <fcntl.h>
#include <stdint.h>
#include <stdio.h>
#include <unistd.h>

enum { SECTORS = 65536, SECTOR_BYTES = 4096, SECTOR_WORDS = 1024 };

static int read_sector(int file, uint32_t i, uint32_t *words)
{
    uint8_t bytes[SECTOR_BYTES];
    if (lseek(file, (off_t)i * SECTOR_BYTES, SEEK_SET) < 0)
        return -1;
    if (read(file, bytes, SECTOR_BYTES) != SECTOR_BYTES)
        return -1;
    for (int k = 0; k < SECTOR_WORDS; k++)
        words[k] = bytes[4 * k] | (uint32_t)bytes[4 * k + 1] << 8 | (uint32_t)bytes[4 * k + 2] << 16 | (uint32_t)bytes[4 * k + 3] << 24;
    return 0;
}

int main(void)
{
    uint32_t words[SECTOR_WORDS], sum = 0;
    int file = open("cvm.disk", O_RDONLY);
    if (file < 0)
        return 1;
    for (uint32_t i = 0; i < SECTORS; i++) {
        if (read_sector(file, i, words) < 0)
            return 1;
        for (int k = 0; k < SECTOR_WORDS; k++)
            sum += words[k];
    }
    printf("%u\n", sum);
    return 0;
}
