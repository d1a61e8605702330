/* Bills an archive: asks the rule `billed`, which is linked to it, for each film, and says how many cartridges are to be bought. Exercise 9. */
#include <stdio.h>

unsigned billed(unsigned compressed, unsigned uncompressed);

/* Films of one kind, with their sizes in gigabytes; those that can't be compressed have 0. */
struct films {
    unsigned count, uncompressed, compressed;
};

static const struct films archive[] = {
    {5000, 9000, 4500},
    {3000, 6000, 2100},
    {900, 12000, 0},
};

enum { CARTRIDGE = 18000 };

int main(void)
{
    unsigned long gigabytes = 0;
    for (unsigned i = 0; i < sizeof archive / sizeof archive[0]; i++)
        for (unsigned film = 0; film < archive[i].count; film++)
            gigabytes += billed(archive[i].compressed, archive[i].uncompressed);
    printf("%lu cartridges\n", (gigabytes + CARTRIDGE - 1) / CARTRIDGE);
    return 0;
}
