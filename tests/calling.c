/* Calls a function of the library with the content of a file, and prints the text: calling FUNCTION FILE. It allocates nothing itself. Where the library says no
   text, the buffer and its length have to be as they were left: it ends with 9 if they are not. */
#include "cops.h"
#include <fcntl.h>
#include <string.h>
#include <unistd.h>

static uint8_t input[1 << 16], output[1 << 16];

int main(int argc, char **argv) {
    int file = argc == 3 ? open(argv[2], O_RDONLY) : -1;
    ssize_t len = file < 0 ? -1 : read(file, input, sizeof input);
    size_t written = 99;
    uint8_t status = 4;
    if (len < 0)
        return 4;
    memset(output, 0xA5, sizeof output);
    if (!strcmp(argv[1], "audit"))
        status = cops_audit(input, (size_t)len, output, sizeof output, &written);
    if (!strcmp(argv[1], "so_far"))
        status = cops_audit_so_far(input, (size_t)len, output, sizeof output, &written);
    if (!strcmp(argv[1], "check_lines"))
        status = cops_check_lines(input, (size_t)len, false, output, sizeof output, &written);
    for (size_t at = written; at < sizeof output; at++)
        if (output[at] != 0xA5)
            return 9;
    if (status == COPS_NO_MEMORY && written)
        return 9;
    return write(1, output, written) == (ssize_t)written ? status : 4;
}
