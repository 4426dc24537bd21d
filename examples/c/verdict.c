/* Prints what is wrong with a system: verdict FILE HORIZON. Its exit code is that of mcscheck. */
#include <mcsim.h>
#include <stdio.h>
#include <stdlib.h>

int main(int count, char **words)
{
    static uint8_t text[1 << 16];
    size_t room = 1 << 12, length = 0;
    uint8_t *lines = NULL;
    uint32_t result = MCS_ROOM;
    FILE *file = count == 3 ? fopen(words[1], "rb") : NULL;

    if (file == NULL) {
        fprintf(stderr, "usage: verdict FILE HORIZON\n");
        return 2;
    }
    size_t bytes = fread(text, 1, sizeof text, file);
    fclose(file);
    while (result == MCS_ROOM) {
        free(lines);
        lines = calloc(room, 1);
        if (lines == NULL)
            return 4;
        result = mcs_check(text, bytes, strtoull(words[2], NULL, 10), MCS_FINDINGS, MCS_TEXT, text, 0, lines, room, &length);
        room = length;
    }
    fwrite(lines, 1, length, result == MCS_FAULT ? stderr : stdout);
    if (result == MCS_FAULT)
        fputc('\n', stderr);
    free(lines);
    return (int)result;
}
