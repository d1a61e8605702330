/* The version of the library that a program runs with: of a shared library it can be another than that of the header it was compiled with. */
#include <stdio.h>

#include "wargnifla.h"

int main(void) {
    uint32_t version = wargnifla_version();
    int is_of_header = version / 1000000 == WARGNIFLA_VERSION_MAJOR && version / 1000 % 1000 == WARGNIFLA_VERSION_MINOR &&
                       version % 1000 == WARGNIFLA_VERSION_PATCH && version == WARGNIFLA_VERSION_NUMBER;
    printf("the library is of the header's version: %s\n", is_of_header ? "yes" : "no");
    return 0;
}
