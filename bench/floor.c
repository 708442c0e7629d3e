/* floor STORE PATH: writes the records of a store again, each with a closed gate after it, a sync, its gate, a sync. Between two
   segments it writes zeros up to the next one, a sync, a closed gate there, a sync. Prints the seconds. */
#include <fcntl.h>
#include <stdio.h>
#include <string.h>
#include <time.h>
#include <unistd.h>

static int file;

static int durable(const void *bytes, ssize_t length, ssize_t place) {
    return pwrite(file, bytes, length, place) == length && fsync(file) == 0;
}

int main(int count, char **words) {
    static unsigned char bytes[67108864], record[40000], zeros[65536];
    unsigned char open_gate = 0xA7;
    struct timespec begin, end;
    int store = count == 3 ? open(words[1], O_RDONLY) : -1;
    file = count == 3 ? open(words[2], O_RDWR | O_CREAT | O_TRUNC, 0644) : -1;
    ssize_t all = read(store, bytes, sizeof bytes), place = 64, length;
    if (file < 0 || all < 65 || !durable(bytes, 64, 0) || !durable(record, 1, 64)) return 1;
    clock_gettime(CLOCK_MONOTONIC, &begin);
    while (place < all) {
        const unsigned char *head = bytes + place + 1;
        if (bytes[place] != open_gate) {
            ssize_t start = (place / 65536 + 1) * 65536;
            if (start >= all) break;
            if (start > place + 1 && !durable(zeros, start - place - 1, place + 1)) return 1;
            if (!durable(zeros, 1, start)) return 1;
            place = start;
            continue;
        }
        length = (ssize_t)head[0] << 24 | head[1] << 16 | head[2] << 8 | head[3];
        if (length > 32768 || place + 5 + length > all) return 1;
        memcpy(record, head, length + 4);
        record[length + 4] = 0;
        if (!durable(record, length + 5, place + 1) || !durable(&open_gate, 1, place)) return 1;
        place += length + 5;
    }
    clock_gettime(CLOCK_MONOTONIC, &end);
    printf("%.6f\n", (end.tv_sec - begin.tv_sec) + (end.tv_nsec - begin.tv_nsec) / 1e9);
    return 0;
}
