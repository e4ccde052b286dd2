/* Program flowload in plain C: it reads s, w, F and a count of calls, and writes so many calls for flowrun, in pieces. */
#define _POSIX_C_SOURCE 200809L
#include <errno.h>
#include <stddef.h>
#include <stdint.h>
#include <string.h>
#include <unistd.h>

enum { INPUT = 32, CALL = 18, CALLS_OF_A_PIECE = 3640, MOST_FLOWS = 4096 };

struct generator {
    uint64_t s, w;
};

static uint64_t next_number(struct generator *generator)
{
    uint64_t s = generator->s;
    s ^= s << 13;
    s ^= s >> 7;
    s ^= s << 17;
    generator->s = s;
    generator->w += 362437;
    return s + generator->w;
}

static uint64_t number_at(const uint8_t *at)
{
    uint64_t x;
    memcpy(&x, at, sizeof x);
    return __builtin_bswap64(x);
}

/* The five zero bytes after the key's number stand there already. */
static void put_call(uint8_t *call, uint64_t first, uint64_t second, uint64_t flows)
{
    uint64_t key = __builtin_bswap64(second % flows);
    uint32_t class = __builtin_bswap32((uint32_t)first);
    call[0] = (uint8_t) "ICDS"[first % 4];
    memcpy(call + 1, &key, sizeof key);
    memcpy(call + 14, &class, sizeof class);
}

/* As many bytes as there are, up to the length. */
static size_t read_full(uint8_t *to, size_t length)
{
    size_t got = 0;
    while (got < length) {
        ssize_t more = read(STDIN_FILENO, to + got, length - got);
        if (more > 0) {
            got += (size_t)more;
        } else if (more == 0 || errno != EINTR) {
            break;
        }
    }
    return got;
}

/* 0 where nobody reads any more. */
static int write_all(const uint8_t *from, size_t length)
{
    while (length > 0) {
        ssize_t written = write(STDOUT_FILENO, from, length);
        if (written > 0) {
            from += written;
            length -= (size_t)written;
        } else if (written == 0 || errno != EINTR) {
            return 0;
        }
    }
    return 1;
}

int main(void)
{
    static uint8_t input[INPUT + 1], calls[CALL * CALLS_OF_A_PIECE];
    if (read_full(input, sizeof input) != INPUT) {
        return 0;
    }
    struct generator generator = {number_at(input), number_at(input + 8)};
    uint64_t flows = number_at(input + 16), left = number_at(input + 24);
    if (generator.s == 0 || flows < 1 || flows > MOST_FLOWS) {
        return 0;
    }
    while (left > 0) {
        size_t count = left < CALLS_OF_A_PIECE ? (size_t)left : CALLS_OF_A_PIECE;
        for (size_t i = 0; i < count; i++) {
            uint64_t first = next_number(&generator);
            uint64_t second = next_number(&generator);
            put_call(calls + CALL * i, first, second, flows);
        }
        if (!write_all(calls, CALL * count)) {
            return 1;
        }
        left -= count;
    }
    return 0;
}
