/* `read_whole FILE` reads a file of at most 512 MiB whole into memory, and shows how many bytes it had. */
#include <stdio.h>
#include <stdlib.h>

int main(int count, char **words) {
    FILE *file = fopen(words[1], "rb");
    char *content = malloc(536870912);
    size_t len = count == 2 && file != NULL && content != NULL ? fread(content, 1, 536870912, file) : 0;
    printf("read %zu %d\n", len, len == 0 ? 0 : content[len - 1]);
    return 0;
}
