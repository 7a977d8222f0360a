/* The listing of a recording in plain C, written by hand from 01, to measure crates/listing beside it (host/listing-c/measure): the same walk
   with the same checks in the same order, buffers of the same size, and the same lines. Its exit status is the verdict: 0 whole, 1 refused,
   2 failed, 141 unread.
       gcc -O3 -o listing listing.c && ./listing FILE        FILE `-` is standard input
   With -DONE_DIGIT a division gives one digit, by the loop that everyone knows; without, two, from a table. */
#include <errno.h>
#include <fcntl.h>
#include <stdint.h>
#include <stdio.h>
#include <string.h>
#include <unistd.h>

enum { WHOLE = 0, REFUSED = 1, FAILED = 2, UNREAD = 141 };

enum { BUFFER = 65536, LONGEST_LINE = 64 };

/* ---- the rules of a message (01, "Connection message") */

/* TLV types: 0 Friendly Name, 2 RTSP Port, 3 Source ID, 4 Security Token, 5 Security Options, 6 PIN Challenge, 7 PIN Response Reason */
#define TYPE(kind) (1u << (kind))

/* The roles of the TLV types in a command: which are needed, and which may be there. */
static const struct roles {
    uint8_t needed, allowed;
} roles[7] = {
    [1] = {TYPE(2) | TYPE(3), TYPE(0) | TYPE(2) | TYPE(3)},
    [2] = {TYPE(0) | TYPE(3), TYPE(0) | TYPE(3)},
    [3] = {TYPE(4), TYPE(3) | TYPE(4)},
    [4] = {TYPE(0) | TYPE(3) | TYPE(5), TYPE(0) | TYPE(3) | TYPE(5)},
    [5] = {TYPE(3) | TYPE(6), TYPE(3) | TYPE(6)},
    [6] = {TYPE(3) | TYPE(6) | TYPE(7), TYPE(3) | TYPE(6) | TYPE(7)},
};

/* The lengths that a value may have: the least, the greatest, and a bit that must not be set in one. */
static const struct lengths {
    uint16_t least, most, odd;
} lengths[8] = {
    [0] = {2, 520, 1}, [2] = {2, 2, 0},      [3] = {16, 16, 0}, [4] = {1, 65535, 0},
    [5] = {1, 65535, 0}, [6] = {1, 65535, 0}, [7] = {1, 1, 0},
};

static unsigned u16_at(const uint8_t *p) {
    return (unsigned)p[0] << 8 | p[1];
}

/* What a message of `size` bytes is refused with, or 0. Its header's Size is right already. */
static unsigned check(const uint8_t *p, size_t size) {
    if (p[2] != 1)
        return 3;
    unsigned command = p[3];
    if (command < 1 || command > 6)
        return 4;
    unsigned needed = roles[command].needed, allowed = roles[command].allowed, seen = 0;
    for (size_t at = 4; at < size;) {
        size_t left = size - at;
        if (left < 3)
            return 5;
        unsigned kind = p[at], len = u16_at(p + at + 1);
        if (left - 3 < len)
            return 5;
        if (kind > 7 || !(allowed & TYPE(kind)))
            return 8;
        if (len < lengths[kind].least || len > lengths[kind].most || len & lengths[kind].odd)
            return 6;
        if (seen & TYPE(kind))
            return 7;
        seen |= TYPE(kind);
        at += 3 + len;
    }
    return needed & ~seen ? 8 : 0;
}

/* ---- lines */

#ifndef ONE_DIGIT
static const char pairs[] = "00010203040506070809101112131415161718192021222324252627282930313233343536373839404142434445464748"
                            "4950515253545556575859606162636465666768697071727374757677787980818283848586878889909192939495969798"
                            "99";
#endif

static uint8_t *put_number(uint8_t *out, uint64_t n) {
    uint8_t digits[20];
    uint8_t *first = digits + sizeof digits;
#ifndef ONE_DIGIT
    while (n >= 100) {
        first -= 2;
        memcpy(first, pairs + 2 * (n % 100), 2);
        n /= 100;
    }
    if (n >= 10) {
        first -= 2;
        memcpy(first, pairs + 2 * n, 2);
    } else
        *--first = '0' + n;
#else
    do {
        *--first = '0' + n % 10;
        n /= 10;
    } while (n > 0);
#endif
    size_t count = digits + sizeof digits - first;
    memcpy(out, first, count);
    return out + count;
}

static uint8_t *put_text(uint8_t *out, const char *text) {
    size_t count = strlen(text);
    memcpy(out, text, count);
    return out + count;
}

static uint8_t *put_message(uint8_t *out, uint64_t place, unsigned command, size_t size) {
    out = put_number(out, place);
    *out++ = ' ';
    out = put_number(out, command);
    *out++ = ' ';
    out = put_number(out, size);
    *out++ = '\n';
    return out;
}

static uint8_t *put_refused(uint8_t *out, uint64_t place, unsigned number) {
    out = put_number(out, place);
    out = put_text(out, " refused ");
    out = put_number(out, number);
    *out++ = '\n';
    return out;
}

static uint8_t *put_end(uint8_t *out, uint64_t place) {
    out = put_text(out, "end ");
    out = put_number(out, place);
    *out++ = '\n';
    return out;
}

/* ---- reading and writing */

/* Writes the lines, and answers 0, or the verdict where they can't be written. */
static int write_lines(const uint8_t *out, const uint8_t *end) {
    while (out < end) {
        ssize_t put = write(STDOUT_FILENO, out, end - out);
        if (put < 0 && errno == EPIPE)
            return UNREAD;
        if (put <= 0) {
            perror("standard output");
            return FAILED;
        }
        out += put;
    }
    return 0;
}

/* Lists a recording, and answers the verdict. Lines are written before a read, which may have to wait for more of a pipe. */
static int list(int fd, const char *path) {
    static uint8_t buf[BUFFER], out[BUFFER];
    size_t from = 0, to = 0;
    uint64_t place = 0;
    uint8_t *end = out;
    int ended = 0, failed;

    for (;;) {
        if (end > out + BUFFER - LONGEST_LINE) {
            if ((failed = write_lines(out, end)) != 0)
                return failed;
            end = out;
        }
        const uint8_t *p = buf + from;
        size_t left = to - from;
        size_t size = left < 4 ? 4 : u16_at(p);
        if (left < (size < 4 ? 4 : size) && !ended) {
            if ((failed = write_lines(out, end)) != 0)
                return failed;
            end = out;
            memmove(buf, p, left);
            from = 0;
            ssize_t got = read(fd, buf + left, BUFFER - left);
            if (got < 0) {
                perror(path);
                return FAILED;
            }
            to = left + got;
            ended = got == 0;
            continue;
        }
        if (left == 0) {
            failed = write_lines(out, put_end(end, place));
            return failed ? failed : WHOLE;
        }
        unsigned refusal = left < 4 ? 1 : size < 4 ? 2 : left < size ? 1 : check(p, size);
        if (refusal) {
            failed = write_lines(out, put_refused(end, place, refusal));
            return failed ? failed : REFUSED;
        }
        end = put_message(end, place, p[3], size);
        from += size;
        place += size;
    }
}

int main(int argc, char **argv) {
    if (argc != 2) {
        fputs("usage: listing FILE\n", stderr);
        return FAILED;
    }
    int fd = strcmp(argv[1], "-") == 0 ? STDIN_FILENO : open(argv[1], O_RDONLY);
    if (fd < 0) {
        perror(argv[1]);
        return FAILED;
    }
    return list(fd, argv[1]);
}
