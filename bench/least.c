/*
 * What lines that no command touches cost at the least, for bench/compare. It reads the standard input in blocks of 64 KiB, and
 * does with each what its arguments ask for:
 *
 *     search   looks for `zzqq 404` by vectors of 32 bytes
 *     count    counts its newlines by such vectors
 *     write    writes it to the standard output
 *
 * It finds no lines, and holds none from block to block.
 */
#include <string.h>
#include <unistd.h>

#define BLOCK 65536

typedef unsigned char vector __attribute__((vector_size(32)));

static unsigned char block[BLOCK + sizeof(vector)] __attribute__((aligned(4096)));

static vector at(size_t place)
{
    vector found;
    memcpy(&found, block + place, sizeof found);
    return found;
}

static int is_none(vector v)
{
    unsigned long long parts[4];
    memcpy(parts, &v, sizeof parts);
    return !(parts[0] | parts[1] | parts[2] | parts[3]);
}

/* The hits, by the needle's two bytes q. */
static size_t searched(size_t length)
{
    size_t hits = 0;
    for (size_t place = 0; place + 128 <= length; place += 128) {
        vector any = {0};
        for (size_t part = 0; part < 128; part += sizeof(vector))
            any |= (vector)(at(place + part) == 'q') & (vector)(at(place + part + 1) == 'q');
        for (size_t q = is_none(any) ? 128 : 0; q < 128; q++)
            hits += place + q >= 2 && !memcmp(block + place + q - 2, "zzqq 404", 8);
    }
    return hits;
}

/* The newlines, but for some of the last 128 bytes. */
static size_t counted(size_t length)
{
    size_t count = 0;
    for (size_t place = 0; place + 128 <= length;) {
        vector lanes[4] = {{0}};
        for (int row = 0; row < 255 && place + 128 <= length; row++, place += 128)
            for (size_t part = 0; part < 4; part++)
                lanes[part] -= (vector)(at(place + part * sizeof(vector)) == '\n');
        for (size_t part = 0; part < 4; part++)
            for (size_t lane = 0; lane < sizeof(vector); lane++)
                count += lanes[part][lane];
    }
    return count;
}

int main(int words, char **word)
{
    size_t total = 0;
    for (ssize_t length; (length = read(0, block, BLOCK)) > 0;)
        for (int k = 1; k < words; k++) {
            if (!strcmp(word[k], "search"))
                total += searched(length);
            else if (!strcmp(word[k], "count"))
                total += counted(length);
            else if (write(1, block, length) != length)
                return 1;
        }
    /* so that the compiler leaves nothing out */
    return total == (size_t)-1;
}
