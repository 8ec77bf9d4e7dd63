/*
 * Prints the version that the header names and the one that the archive gives, which must be the same.
 */
#include "nabiteke.h"
#include <stdio.h>

int main(void)
{
    printf("header %u, archive %u\n", (unsigned)NABITEKE_VERSION, (unsigned)nabiteke_version());
    return nabiteke_version() != NABITEKE_VERSION;
}
