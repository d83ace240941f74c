/* Writes the sum of each page of a database file that is wrong, as tools/run page_sums does, for files of gigabytes.

       sums FILE PAGE_SIZE */
#include <stdint.h>
#include <stdio.h>
#include <stdlib.h>
#include <string.h>

int main(int count, char **words) {
    if (count != 3)
        return 2;
    size_t size = strtoul(words[2], NULL, 10);
    FILE *file = fopen(words[1], "r+b");
    uint32_t *page = malloc(size), sums[2];
    if (!file || !page || size < 512)
        return 1;
    while (fread(page, size, 1, file) == 1) {
        sums[0] = sums[1] = 0;
        for (size_t at = 0; at < size / 4 - 2; at += 2) {
            sums[0] += page[at] + sums[1];
            sums[1] += page[at + 1] + sums[0];
        }
        if (memcmp(sums, page + size / 4 - 2, 8)) {
            fseek(file, -8, SEEK_CUR);
            fwrite(sums, 8, 1, file);
            fseek(file, 0, SEEK_CUR);
        }
    }
    return fclose(file) != 0;
}
