/* Judges a trace file as `cops audit` does. cc -I release examples/library/judge.c release/libcops.a -o judge && ./judge TRACE */
#include "cops.h"
#include <stdio.h>
#include <stdlib.h>

static uint8_t *read_all(const char *name, size_t *len) {
    FILE *file = fopen(name, "rb");
    uint8_t *bytes = NULL;
    if (file && !fseek(file, 0, SEEK_END) && (*len = (size_t)ftell(file), bytes = malloc(*len + 1))) {
        rewind(file);
        if (fread(bytes, 1, *len, file) != *len) exit(4);
    }
    if (file) fclose(file);
    return bytes;
}

int main(int argc, char **argv) {
    size_t len = 0, written = 0, size = COPS_SIZE_UNLESS_REFUSED;
    uint8_t *input = argc == 2 ? read_all(argv[1], &len) : NULL;
    uint8_t *output = malloc(size), status = COPS_TOO_SMALL;
    if (!input || !output) return 4;
    while ((status = cops_audit(input, len, output, size, &written)) == COPS_TOO_SMALL) {
        free(output);
        if (!(output = malloc(size = written))) return COPS_NO_MEMORY;
    }
    fwrite(output, 1, written, stdout);
    free(output);
    free(input);
    return status;
}
