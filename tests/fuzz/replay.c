/* Runs the fuzz target over files, without a fuzzer: replay FILE.. */
#include <stdint.h>
#include <stdio.h>
#include <stdlib.h>
#include <unistd.h>

int LLVMFuzzerTestOneInput(const uint8_t *data, size_t size);

enum { LARGEST = 1 << 17, TIME_LIMIT = 240 };

static int replay(const char *path)
{
    FILE *file = fopen(path, "rb");
    uint8_t *data = malloc(LARGEST);
    size_t size;

    if (file == NULL || data == NULL) {
        perror(path);
        return 1;
    }
    size = fread(data, 1, LARGEST, file);
    fclose(file);
    printf("%s: %zu bytes\n", path, size);
    fflush(stdout);
    LLVMFuzzerTestOneInput(data, size);
    free(data);
    return 0;
}

int main(int count, char **paths)
{
    if (count < 2) {
        fprintf(stderr, "replay: no files\n");
        return 1;
    }
    alarm(TIME_LIMIT);
    for (int at = 1; at < count; at++)
        if (replay(paths[at]) != 0)
            return 1;
    return 0;
}
