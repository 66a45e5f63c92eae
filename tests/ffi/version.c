/* Prints the version of the library as the program prints its own. */
#include "serialcheck.h"

#include <stdio.h>

int main(void) {
    const unsigned version = serialcheck_version();
    printf("serialcheck %u.%u.%u\n", version >> 16, version >> 8 & 255, version & 255);
    return 0;
}
