/* Tells of each piece of a file whether libbson's reader takes it: a line `ok` or `bad` each. */
#include <bson/bson.h>
#include <stdio.h>
#include <stdlib.h>

int main(int count, char **words)
{
    if (count != 3) {
        fprintf(stderr, "usage: outside_bson FILE LENGTH\n");
        return 2;
    }
    size_t length = strtoul(words[2], NULL, 10);
    FILE *file = fopen(words[1], "rb");
    unsigned char *piece = malloc(length);
    if (file == NULL || piece == NULL || length == 0)
        return 2;
    while (fread(piece, 1, length, file) == length) {
        bson_t document;
        bson_error_t error;
        int taken = bson_init_static(&document, piece, length)
            && bson_validate_with_error(&document, BSON_VALIDATE_UTF8 | BSON_VALIDATE_UTF8_ALLOW_NULL, &error);
        puts(taken ? "ok" : "bad");
    }
    return 0;
}
