/* The floor of durable.py. */
#include <fcntl.h>
#include <stdlib.h>
#include <unistd.h>

/* Writes records of 32 bytes one after another, each after a gate byte of its own, and syncs both writes. */
int main(int count, char **words) {
    int file = open(words[1], O_RDWR | O_CREAT | O_TRUNC, 0600);
    char record[37] = {0}, gate = 1;
    off_t tail = 0;
    for (int left = count > 2 ? atoi(words[2]) : 0; file >= 0 && left > 0; left--, tail += sizeof record)
        if (pwrite(file, record, sizeof record, tail + 1) != sizeof record || fdatasync(file) ||
            pwrite(file, &gate, 1, tail) != 1 || fdatasync(file))
            return 1;
    return file < 0;
}
