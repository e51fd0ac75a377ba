#!/bin/sh
# Writes a view of a file of 500 MB by `extract`, in both versions of the format, eight turns each, and says the seconds
# of the fastest and the most memory. Beside it stand `cp` of the file, and a small program in C that does what a
# collection has to: it reads the whole file into memory, and then writes it. The numbers of the view have to be those
# of the file. It ends with status 0 where they are, memory is at most that of the files and 16 MiB, and `extract` has
# 0.9 of the speed of the program in C.
# Use: bench/extract.sh [PROGRAM]; by default the proved program. It takes 2.4 GB of disk. gcc is installed where it is
# missing.
set -eu
. "$(dirname "$0")/common.sh"
use_program "$@"
"$top/bench/packages.sh" gcc=gcc
make_folder
cat > "$folder/hold.c" << 'PROGRAM'
/* `hold FILE` reads a whole file into memory, and then writes it to standard output. */
#include <fcntl.h>
#include <stdlib.h>
#include <sys/stat.h>
#include <unistd.h>

int main(int count, char **words) {
    struct stat about;
    int file = count == 2 ? open(words[1], O_RDONLY) : -1;
    if (file < 0 || fstat(file, &about) < 0) return 2;
    char *bytes = malloc(about.st_size);
    for (off_t at = 0; at < about.st_size;) {
        ssize_t got = read(file, bytes + at, about.st_size - at);
        if (got <= 0) return 2;
        at += got;
    }
    for (off_t at = 0; at < about.st_size;) {
        ssize_t put = write(1, bytes + at, about.st_size - at);
        if (put <= 0) return 2;
        at += put;
    }
    return 0;
}
PROGRAM
cc -O2 -o "$folder/hold" "$folder/hold.c"
PYTHONPATH=$top/bench python3 -B "$top/bench/extract.py" "$program" "$folder"
