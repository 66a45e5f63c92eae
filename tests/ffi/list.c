/* Prints the text of `list` of a file by the library: list FILE. The status is that of the answer. */
#include "serialcheck.h"

#include <stdio.h>

static uint8_t bytes[1 << 20], room[1 << 20];

int main(int words, char **word) {
    FILE *file = words == 2 ? fopen(word[1], "rb") : 0;
    if (!file) return 9;
    const size_t len = fread(bytes, 1, sizeof bytes, file);
    fclose(file);
    serialcheck_answer answer;
    const uint32_t status = serialcheck_list(bytes, len, 0, 0, 0, 0, sizeof room, room, sizeof room, &answer);
    fwrite(room, 1, (size_t)answer.bytes, stdout);
    return (int)status;
}
