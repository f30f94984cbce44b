/*
 * What the host's calls answer, against document 01 with 02's A2, A5 and A8: its figures, each refusal, short buffers between guard bytes, which lines are monitored, and
 * damaged containers, packets and recordings from a fixed seed. What is expected is worked out here from these rules, never taken from the library, and said in the header's names,
 * so that a wrong constant is found.
 * Prints the number of checks; the first that fails ends it. With the word `meanings` it only prints what each number means.
 */
#include "lipsync.h"
#include <stdio.h>
#include <stdlib.h>
#include <string.h>

static unsigned long checks;

static void check(int right, const char *what, int line) {
    checks++;
    if (!right) {
        fprintf(stderr, "tests/host.c:%d: %s\n", line, what);
        exit(1);
    }
}
#define CHECK(x) check(x, #x, __LINE__)

/* ---- a buffer of some room between guard bytes */

enum { GUARD = 64, MOST = 1200, FILL = 0xA5 };

static uint8_t area[GUARD + MOST + GUARD];

static uint8_t *lend(void) {
    memset(area, FILL, sizeof area);
    return area + GUARD;
}

/* the buffer starts with these bytes, and all else is as it was lent */
static int holds(const uint8_t *bytes, size_t n) {
    if (n && memcmp(area + GUARD, bytes, n)) return 0;
    for (size_t i = 0; i < sizeof area; i++)
        if ((i < GUARD || i >= GUARD + n) && area[i] != FILL) return 0;
    return 1;
}

static int untouched(void) { return holds(NULL, 0); }

/* ---- random numbers from a fixed seed */

static uint64_t seed = 2064;

static uint32_t below(uint32_t n) {
    seed ^= seed << 13;
    seed ^= seed >> 7;
    seed ^= seed << 17;
    return (uint32_t)(seed >> 32) % n;
}

/* ---- document 01, The container: the first refusal, or 0 and the contents, flat */

static int is_rate(unsigned code) {
    switch (code) {
    case LIPSYNC_RATE_23_98: case LIPSYNC_RATE_24: case LIPSYNC_RATE_47_95: case LIPSYNC_RATE_25: case LIPSYNC_RATE_29_97:
    case LIPSYNC_RATE_30: case LIPSYNC_RATE_48: case LIPSYNC_RATE_50: case LIPSYNC_RATE_59_94: case LIPSYNC_RATE_60: return 1;
    default: return 0;
    }
}

static int is_interlaced(unsigned code) { return code == LIPSYNC_RATE_25 || code == LIPSYNC_RATE_29_97 || code == LIPSYNC_RATE_30; }

/* 000, Table 13: the one or two counts of each rate's cadence (02, A2) */
static const unsigned counts[12][2] = {
    [LIPSYNC_RATE_23_98] = {4, 5}, [LIPSYNC_RATE_24] = {5, 5}, [LIPSYNC_RATE_47_95] = {2, 3}, [LIPSYNC_RATE_25] = {4, 5}, [LIPSYNC_RATE_29_97] = {3, 4},
    [LIPSYNC_RATE_30] = {4, 4}, [LIPSYNC_RATE_48] = {2, 3}, [LIPSYNC_RATE_50] = {2, 3}, [LIPSYNC_RATE_59_94] = {1, 2}, [LIPSYNC_RATE_60] = {2, 2}};

static int occurs(unsigned rate, unsigned size) { return size == counts[rate][0] || size == counts[rate][1]; }

static int is_mix(unsigned mix) { return mix == LIPSYNC_MIX_MONO || mix == LIPSYNC_MIX_STEREO || mix == LIPSYNC_MIX_5_1; }

static int judge_container(const uint8_t *s, size_t n, uint8_t *flat) {
    size_t p = 4, end = n - 1;
    unsigned sum = 0;
    memset(flat, 0, LIPSYNC_FLAT_SIZE);
    if (n < 5) return LIPSYNC_REFUSED_UNDER_5_BYTES;
    if (s[0] != 0) return LIPSYNC_REFUSED_VERSION;
    if (n != s[2] + 3u) return LIPSYNC_REFUSED_SIZE;
    for (size_t i = 0; i < n; i++) sum += s[i];
    if (sum % 256 != 0) return LIPSYNC_REFUSED_SUM;
    unsigned rate = s[3] >> 4;
    if (!is_rate(rate) || (s[3] & 8)) return LIPSYNC_REFUSED_RATE;
    flat[LIPSYNC_FLAT_COUNTER] = s[1];
    flat[LIPSYNC_FLAT_RATE] = (uint8_t)rate;
    if (s[3] & 4) {
        if (end - p < 21 || s[p] != 0) return LIPSYNC_REFUSED_ID;
        flat[LIPSYNC_FLAT_HAS_ID] = 1;
        memcpy(flat + LIPSYNC_FLAT_ID, s + p + 1, 20);
        p += 21;
    }
    if (s[3] & 2) {
        if (end - p < 2) return LIPSYNC_REFUSED_VIDEO;
        unsigned values = s[p] == 0x09 ? 1 : s[p] == 0x11 ? 2 : 0;
        if (values == 0 || (values == 2 && !is_interlaced(rate)) || end - p < values + 1) return LIPSYNC_REFUSED_VIDEO;
        flat[LIPSYNC_FLAT_VIDEO_COUNT] = (uint8_t)values;
        for (unsigned i = 0; i < values; i++) {
            if (s[p + 1 + i] > 240) return LIPSYNC_REFUSED_VIDEO;
            flat[LIPSYNC_FLAT_VIDEO + i] = s[p + 1 + i];
        }
        p += values + 1;
    }
    if (s[3] & 1) {
        if (end - p < 1 || s[p] % 8 != 2) return LIPSYNC_REFUSED_AUDIO;
        unsigned count = s[p] / 8 + 1, first = 0;
        flat[LIPSYNC_FLAT_AUDIO_COUNT] = (uint8_t)count;
        p++;
        for (unsigned k = 0; k < count; k++) {
            if (end - p < 2) return LIPSYNC_REFUSED_AUDIO;
            unsigned mix = s[p] % 8, size = s[p + 1] / 8;
            if (!is_mix(mix)) return LIPSYNC_REFUSED_AUDIO;
            if (k == 0) first = size;
            if (s[p + 1] % 8 != 0 || !occurs(rate, size) || size != first || end - p < 2 + size) return LIPSYNC_REFUSED_AUDIO;
            uint8_t *f = flat + LIPSYNC_FLAT_AUDIO + LIPSYNC_FLAT_AUDIO_STEP * k;
            f[LIPSYNC_FLAT_AUDIO_ID] = s[p] / 8;
            f[LIPSYNC_FLAT_AUDIO_MIX] = (uint8_t)mix;
            f[LIPSYNC_FLAT_AUDIO_SIZE] = (uint8_t)size;
            memcpy(f + LIPSYNC_FLAT_AUDIO_BYTES, s + p + 2, size);
            p += 2 + size;
        }
    }
    return p == end ? LIPSYNC_OK : LIPSYNC_REFUSED_LEFT_OVER;
}

/* ---- document 01, The packet */

static unsigned with_parity(unsigned byte) {
    unsigned ones = 0;
    for (unsigned bit = 0; bit < 8; bit++) ones += byte >> bit & 1;
    return byte | (ones % 2 ? 0x100u : 0x200u);
}

static unsigned checksum(const unsigned *words, size_t n) {
    unsigned sum = 0;
    for (size_t i = 0; i < n; i++) sum += words[i] & 0x1FF;
    sum &= 0x1FF;
    return sum | (~sum << 1 & 0x200u);
}

static size_t wrap(const uint8_t *c, size_t n, unsigned *w) {
    static const unsigned start[] = {0x000, 0x3FF, 0x3FF, 0x241, 0x10B};
    memcpy(w, start, sizeof start);
    w[5] = with_parity((unsigned)n & 0xFF);
    for (size_t i = 0; i < n; i++) w[6 + i] = with_parity(c[i]);
    w[6 + n] = checksum(w + 3, n + 3);
    return n + 7;
}

static size_t lay(const unsigned *w, size_t n, uint8_t *bytes) {
    for (size_t i = 0; i < n; i++) {
        bytes[2 * i] = w[i] & 0xFF;
        bytes[2 * i + 1] = (uint8_t)(w[i] >> 8);
    }
    return 2 * n;
}

static int judge_packet(const uint8_t *s, size_t size, uint8_t *container, size_t *n) {
    unsigned w[MOST];
    uint8_t flat[LIPSYNC_FLAT_SIZE];
    size_t words = size / 2;
    *n = 0;
    if (size % 2) return LIPSYNC_REFUSED_WORD;
    for (size_t i = 0; i < words; i++) {
        w[i] = s[2 * i] + 256u * s[2 * i + 1];
        if (w[i] > 0x3FF) return LIPSYNC_REFUSED_WORD;
    }
    if (words < 7) return LIPSYNC_REFUSED_UNDER_7_WORDS;
    if (w[0] != 0 || w[1] != 0x3FF || w[2] != 0x3FF) return LIPSYNC_REFUSED_START;
    if (w[3] != 0x241 || w[4] != 0x10B) return LIPSYNC_REFUSED_KIND;
    if (w[5] != with_parity(w[5] & 0xFF) || words != (w[5] & 0xFF) + 7) return LIPSYNC_REFUSED_COUNT;
    size_t count = words - 7;
    for (size_t i = 0; i < count; i++) {
        if (w[6 + i] != with_parity(w[6 + i] & 0xFF)) return LIPSYNC_REFUSED_PARITY;
        container[i] = w[6 + i] & 0xFF;
    }
    if (w[6 + count] != checksum(w + 3, count + 3)) return LIPSYNC_REFUSED_CHECKSUM;
    *n = count;
    return judge_container(container, count, flat);
}

/* ---- 02, A5; 001, 7.2: the transport packet */

/* CRC_32's register after so many bits, the highest of each byte first, which go in one by one: all ones at the start, polynomial 04C11DB7h */
static uint32_t register_after(const uint8_t *s, size_t n) {
    uint32_t reg = 0xFFFFFFFF;
    for (size_t i = 0; i < 8 * n; i++) {
        unsigned differ = (reg >> 31) ^ (s[i / 8] >> (7 - i % 8) & 1u);
        reg = reg << 1 ^ (differ ? 0x04C11DB7 : 0);
    }
    return reg;
}

static void seal(uint8_t *s, size_t n) {
    uint32_t crc = register_after(s, n - 4);
    for (unsigned i = 0; i < 4; i++) s[n - 4 + i] = (uint8_t)(crc >> (24 - 8 * i));
}

static size_t stream(const uint8_t *c, size_t n, uint8_t *s) {
    static const uint8_t start[] = {0x00, 0x00, 0x01, 0xBF};
    memcpy(s, start, sizeof start);
    s[4] = (uint8_t)((n + 4) / 256);
    s[5] = (uint8_t)((n + 4) % 256);
    memcpy(s + 6, c, n);
    seal(s, n + 10);
    return n + 10;
}

static int judge_transport(const uint8_t *s, size_t size, size_t *n) {
    uint8_t flat[LIPSYNC_FLAT_SIZE];
    *n = 0;
    if (size < 10) return LIPSYNC_REFUSED_UNDER_10_BYTES;
    if (s[0] != 0x00 || s[1] != 0x00 || s[2] != 0x01 || s[3] != 0xBF) return LIPSYNC_REFUSED_START_CODE;
    if (size != 6 + 256u * s[4] + s[5]) return LIPSYNC_REFUSED_LENGTH;
    if (register_after(s, size) != 0) return LIPSYNC_REFUSED_CRC;
    *n = size - 10;
    return judge_container(s + 6, *n, flat);
}

/* ---- 02, A8: the recording */

/* the bytes of the acceptable field that starts here, 0 where none does */
static size_t field_here(const uint8_t *s, size_t left) {
    uint8_t flat[LIPSYNC_FLAT_SIZE];
    if (left < 3 || s[0] != 0x01) return 0;
    size_t n = 256u * s[1] + s[2];
    if (n > left - 3 || judge_container(s + 3, n, flat) != LIPSYNC_OK) return 0;
    return n + 3;
}

/* 50 is asked of every place, and not of the walk */
static int judge_recording(const uint8_t *s, size_t size, uint8_t *kept, size_t *n) {
    int any = 0;
    *n = 0;
    if (size > LIPSYNC_LONGEST_RECORDING) return LIPSYNC_REFUSED_TOO_LONG;
    for (size_t at = 0; at < size; at++) any |= field_here(s + at, size - at) != 0;
    if (!any) return LIPSYNC_REFUSED_NO_FIELD;
    for (size_t at = 0; at < size;) {
        size_t field = field_here(s + at, size - at);
        if (field) memcpy(kept + *n, s + at, field);
        *n += field;
        at += field ? field : 1;
    }
    return LIPSYNC_OK;
}

static size_t field(const uint8_t *c, size_t n, uint8_t *s) {
    s[0] = 0x01;
    s[1] = (uint8_t)(n / 256);
    s[2] = (uint8_t)(n % 256);
    memcpy(s + 3, c, n);
    return n + 3;
}

/* ---- calls, each compared with what 01 says, at some room */

static int seen[64];

/* the written length of the newest reading or sampling */
static size_t count;

static void try_container(const uint8_t *s, size_t n, size_t room) {
    uint8_t flat[LIPSYNC_FLAT_SIZE], copy[MOST];
    if (n) memcpy(copy, s, n);
    int expected = judge_container(s, n, flat);
    if (expected == LIPSYNC_OK && room < LIPSYNC_FLAT_SIZE) expected = LIPSYNC_REFUSED_ROOM;
    uint8_t *out = lend();
    count = 99;
    int number = lipsync_read_container(s, n, out, room, &count);
    seen[number]++;
    CHECK(number == expected);
    CHECK(count == (number == 0 ? LIPSYNC_FLAT_SIZE : 0));
    CHECK(holds(flat, count));
    CHECK(n == 0 || memcmp(copy, s, n) == 0);
}

static void try_wrap(const uint8_t *s, size_t n, size_t room) {
    uint8_t flat[LIPSYNC_FLAT_SIZE], packet[2 * MOST];
    unsigned words[MOST];
    size_t written = 99, size = 0;
    int expected = judge_container(s, n, flat);
    if (expected == 0) size = lay(words, wrap(s, n, words), packet);
    if (expected == LIPSYNC_OK && room < size) expected = LIPSYNC_REFUSED_ROOM;
    uint8_t *out = lend();
    int number = lipsync_write_packet(s, n, out, room, &written);
    seen[number]++;
    CHECK(number == expected);
    CHECK(written == (number == 0 ? size : 0));
    CHECK(holds(packet, written));
}

static void try_unwrap(const uint8_t *s, size_t n, size_t room) {
    uint8_t container[MOST], again[2 * MOST];
    size_t written = 99, size, rewritten = 99;
    int expected = judge_packet(s, n, container, &size);
    if (expected == LIPSYNC_OK && room < size) expected = LIPSYNC_REFUSED_ROOM;
    uint8_t *out = lend();
    int number = lipsync_read_packet(s, n, out, room, &written);
    seen[number]++;
    CHECK(number == expected);
    CHECK(written == (number == 0 ? size : 0));
    CHECK(holds(container, written));
    if (number == 0) {
        CHECK(lipsync_write_packet(out, written, again, sizeof again, &rewritten) == 0);
        CHECK(rewritten == n && memcmp(again, s, n) == 0);
    }
}

static void try_stream(const uint8_t *s, size_t n, size_t room) {
    uint8_t flat[LIPSYNC_FLAT_SIZE], packet[2 * MOST];
    size_t written = 99, size = 0;
    int expected = judge_container(s, n, flat);
    if (expected == LIPSYNC_OK) size = stream(s, n, packet);
    if (expected == LIPSYNC_OK && room < size) expected = LIPSYNC_REFUSED_ROOM;
    uint8_t *out = lend();
    int number = lipsync_write_transport(s, n, out, room, &written);
    seen[number]++;
    CHECK(number == expected);
    CHECK(written == (number == 0 ? size : 0));
    CHECK(holds(packet, written));
}

static void try_unstream(const uint8_t *s, size_t n, size_t room) {
    uint8_t again[2 * MOST];
    size_t written = 99, size, rewritten = 99;
    int expected = judge_transport(s, n, &size);
    if (expected == LIPSYNC_OK && room < size) expected = LIPSYNC_REFUSED_ROOM;
    uint8_t *out = lend();
    int number = lipsync_read_transport(s, n, out, room, &written);
    seen[number]++;
    CHECK(number == expected);
    CHECK(written == (number == 0 ? size : 0));
    CHECK(holds(s + 6, written));
    if (number == 0) {
        CHECK(lipsync_write_transport(out, written, again, sizeof again, &rewritten) == 0);
        CHECK(rewritten == n && memcmp(again, s, n) == 0);
    }
}

static void try_mend(const uint8_t *s, size_t n, size_t room) {
    static uint8_t kept[MOST], again[MOST], copy[MOST];
    size_t written = 99, size, rewritten = 99;
    if (n) memcpy(copy, s, n);
    int expected = judge_recording(s, n, kept, &size);
    if (expected == LIPSYNC_OK && room < size) expected = LIPSYNC_REFUSED_ROOM;
    uint8_t *out = lend();
    int number = lipsync_mend(s, n, out, room, &written);
    seen[number]++;
    CHECK(number == expected);
    CHECK(written == (number == 0 ? size : 0));
    CHECK(holds(kept, written));
    CHECK(n == 0 || memcmp(copy, s, n) == 0);
    if (number == 0) {
        CHECK(lipsync_mend(out, written, again, sizeof again, &rewritten) == 0);
        CHECK(rewritten == written && memcmp(again, out, written) == 0);
    }
}

/* ---- containers made by 01's rules */

static void close_up(uint8_t *s, size_t n) {
    unsigned sum = 0;
    s[2] = (uint8_t)(n - 3);
    for (size_t i = 0; i + 1 < n; i++) sum += s[i];
    s[n - 1] = (uint8_t)(256 - sum % 256);
}

static size_t made(uint8_t *s) {
    static const uint8_t mixes[] = {LIPSYNC_MIX_MONO, LIPSYNC_MIX_STEREO, LIPSYNC_MIX_5_1};
    unsigned rate = 2 + below(10), flags = below(8);
    size_t n = 4;
    s[0] = 0;
    s[1] = (uint8_t)below(256);
    s[3] = (uint8_t)(rate * 16 + flags);
    if (flags & 4) {
        s[n++] = 0;
        for (int i = 0; i < 20; i++) s[n++] = (uint8_t)below(256);
    }
    if (flags & 2) {
        unsigned values = is_interlaced(rate) ? 1 + below(2) : 1;
        s[n++] = values == 1 ? 0x09 : 0x11;
        while (values--) s[n++] = (uint8_t)below(241);
    }
    if (flags & 1) {
        unsigned count = below(4) ? 1 + below(4) : 1 + below(32), every = counts[rate][below(2)];
        s[n++] = (uint8_t)((count - 1) * 8 + 2);
        while (count--) {
            unsigned size = every;
            s[n++] = (uint8_t)(below(32) * 8 + mixes[below(3)]);
            s[n++] = (uint8_t)(size * 8);
            while (size--) s[n++] = (uint8_t)below(256);
        }
    }
    close_up(s, n + 1);
    return n + 1;
}

/* some damage, after which Length and checksum may be set right again, so that what lies behind them is met */
static size_t damaged(uint8_t *s, size_t n) {
    for (unsigned times = 1 + below(3); times; times--) {
        switch (below(6)) {
        case 0: s[below((uint32_t)n)] ^= (uint8_t)(1u << below(8)); break;
        case 1: s[below((uint32_t)n)] = (uint8_t)below(256); break;
        case 2: n = n > 1 ? n - 1 : n; break;
        case 3: s[n++] = (uint8_t)below(256); break;
        case 4: s[3] = (uint8_t)(below(2) ? below(256) : (2 + below(10)) * 16 + s[3] % 16); break;
        default: n = below(20) ? n : 1 + below((uint32_t)n); break;
        }
    }
    if (n >= 5 && n <= 258 && below(4)) close_up(s, n);
    return n;
}

/* ---- the parts of the test */

static int read_flat(const uint8_t *s, size_t n) {
    count = 99;
    return lipsync_read_container(s, n, lend(), LIPSYNC_FLAT_SIZE, &count);
}

/* a reading refused with this number: nothing is written */
static int read_refused(const uint8_t *s, size_t n, int number) {
    count = 99;
    return lipsync_read_container(s, n, lend(), MOST, &count) == number && count == 0 && untouched();
}

static void figures(void) {
    const uint8_t bare[] = {0x00, 0x00, 0x02, 0x50, 0xAE};
    const unsigned words[] = {0x000, 0x3FF, 0x3FF, 0x241, 0x10B, 0x205, 0x200, 0x200, 0x102, 0x250, 0x1AE, 0x251};
    const uint8_t video[] = {0x00, 0x07, 0x04, 0x52, 0x09, 0xF0, 0xAA};
    uint8_t audio[] = {0x00, 0x00, 0x07, 0xB1, 0x02, 0x01, 0x10, 0xFF, 0x01, 0x35};
    uint8_t flat[LIPSYNC_FLAT_SIZE] = {0}, packet[24];
    size_t written;

    flat[LIPSYNC_FLAT_RATE] = LIPSYNC_RATE_25;
    CHECK(read_flat(bare, sizeof bare) == LIPSYNC_OK && holds(flat, LIPSYNC_FLAT_SIZE));
    lay(words, 12, packet);
    CHECK(lipsync_write_packet(bare, sizeof bare, lend(), MOST, &written) == LIPSYNC_OK && written == 24);
    CHECK(holds(packet, 24));
    CHECK(lipsync_read_packet(packet, 24, lend(), MOST, &written) == LIPSYNC_OK && written == 5);
    CHECK(holds(bare, 5));

    flat[LIPSYNC_FLAT_COUNTER] = 7;
    flat[LIPSYNC_FLAT_VIDEO_COUNT] = 1;
    flat[LIPSYNC_FLAT_VIDEO] = 240;
    CHECK(read_flat(video, sizeof video) == LIPSYNC_OK && holds(flat, LIPSYNC_FLAT_SIZE));

    memset(flat, 0, sizeof flat);
    flat[LIPSYNC_FLAT_RATE] = LIPSYNC_RATE_60;
    flat[LIPSYNC_FLAT_AUDIO_COUNT] = 1;
    flat[LIPSYNC_FLAT_AUDIO + LIPSYNC_FLAT_AUDIO_MIX] = LIPSYNC_MIX_MONO;
    flat[LIPSYNC_FLAT_AUDIO + LIPSYNC_FLAT_AUDIO_SIZE] = 2;
    flat[LIPSYNC_FLAT_AUDIO + LIPSYNC_FLAT_AUDIO_BYTES] = 0xFF;
    flat[LIPSYNC_FLAT_AUDIO + LIPSYNC_FLAT_AUDIO_BYTES + 1] = 0x01;
    CHECK(read_flat(audio, sizeof audio) == LIPSYNC_OK && holds(flat, LIPSYNC_FLAT_SIZE));
    audio[9] = 0x36;
    CHECK(read_flat(audio, sizeof audio) == LIPSYNC_REFUSED_SUM && untouched());
}

/* all parts of a container, each as large as the rate lets it be */
static size_t full(unsigned rate, uint8_t *s) {
    unsigned size = counts[rate][0] > counts[rate][1] ? counts[rate][0] : counts[rate][1];
    size_t n = 25;
    memset(s, 0, MOST);
    s[1] = 255;
    s[3] = (uint8_t)(rate * 16 + 7);
    s[n++] = is_interlaced(rate) ? 0x11 : 0x09;
    s[n++] = 240;
    if (is_interlaced(rate)) s[n++] = 240;
    s[n++] = 31 * 8 + 2;
    for (unsigned k = 0; k < 32; k++, n += 2 + size) {
        s[n] = (uint8_t)(k * 8 + LIPSYNC_MIX_5_1);
        s[n + 1] = (uint8_t)(size * 8);
    }
    close_up(s, ++n);
    return n;
}

/* 4 + 21 + 3 + 225 + 1 bytes at 25 Hz, and what each other rate's cadence leaves of them (02, A2) */
static void largest(void) {
    static const unsigned most[12] = {0, 0, 253, 253, 189, LIPSYNC_LARGEST_CONTAINER, 222, 222, 189, 189, 157, 157};
    uint8_t s[MOST], packet[2 * MOST];
    unsigned words[MOST];
    for (unsigned rate = LIPSYNC_RATE_23_98; rate <= LIPSYNC_RATE_60; rate++) {
        size_t n = full(rate, s), written = 99;
        CHECK(n == most[rate] && read_flat(s, n) == LIPSYNC_OK);
        try_container(s, n, LIPSYNC_FLAT_SIZE);
        size_t size = lay(words, wrap(s, n, words), packet);
        CHECK(size == LIPSYNC_LARGEST_PACKET - 2 * (LIPSYNC_LARGEST_CONTAINER - n));
        CHECK(lipsync_write_packet(s, n, lend(), size, &written) == LIPSYNC_OK && written == size && holds(packet, size));
        CHECK(lipsync_write_packet(s, n, lend(), size - 1, &written) == LIPSYNC_REFUSED_ROOM && written == 0 && untouched());
        CHECK(lipsync_read_packet(packet, size, lend(), n, &written) == LIPSYNC_OK && written == n && holds(s, n));
        CHECK(lipsync_read_packet(packet, size, lend(), n - 1, &written) == LIPSYNC_REFUSED_ROOM && written == 0 && untouched());
    }
}

/* 02, A2: at each rate containers whose last fingerprint has one count and the others another, through every call; 0 where these are one count of the rate's cadence */
static void byte_counts(void) {
    static const unsigned numbers[] = {1, 2, 3, 32};
    uint8_t s[MOST], packet[2 * MOST], flat[LIPSYNC_FLAT_SIZE];
    unsigned words[MOST];
    for (unsigned turn = 0; turn < 10 * 6 * 6 * 4; turn++) {
        unsigned count = numbers[turn % 4], other = turn / 4 % 6, last = turn / 24 % 6, rate = 2 + turn / 144;
        size_t n = 5;
        memset(s, 0, sizeof s);
        s[3] = (uint8_t)(rate * 16 + 1);
        s[4] = (uint8_t)((count - 1) * 8 + 2);
        for (unsigned k = 1; k <= count; k++) {
            unsigned size = k == count ? last : other;
            s[n] = LIPSYNC_MIX_MONO;
            s[n + 1] = (uint8_t)(size * 8);
            n += 2 + size;
        }
        close_up(s, ++n);
        int right = occurs(rate, last) && (count == 1 || other == last);
        CHECK(judge_container(s, n, flat) == (right ? LIPSYNC_OK : LIPSYNC_REFUSED_AUDIO));
        try_container(s, n, MOST);
        try_wrap(s, n, MOST);
        try_unwrap(packet, lay(words, wrap(s, n, words), packet), MOST);
    }
}

/* a container of these bytes before its checksum, with Length and checksum right */
static void refused_as(int number, const uint8_t *front, size_t n) {
    uint8_t s[64], packet[256];
    unsigned words[64];
    size_t written = 99;
    memcpy(s, front, n);
    close_up(s, n + 1);
    CHECK(read_refused(s, n + 1, number));
    CHECK(lipsync_write_packet(s, n + 1, lend(), MOST, &written) == number && written == 0);
    CHECK(untouched());
    size_t size = lay(words, wrap(s, n + 1, words), packet);
    written = 99;
    CHECK(lipsync_read_packet(packet, size, lend(), MOST, &written) == number && written == 0);
    CHECK(untouched());
    try_container(s, n + 1, MOST);
}
#define REFUSED_AS(name, ...) refused_as(LIPSYNC_REFUSED_##name, (const uint8_t[]){__VA_ARGS__}, sizeof((const uint8_t[]){__VA_ARGS__}))

static void container_refusals(void) {
    const uint8_t bare[] = {0x00, 0x00, 0x02, 0x50, 0xAE}, later[] = {0x01, 0x00, 0x02, 0x50, 0xAD};
    const uint8_t longer[] = {0x00, 0x00, 0x03, 0x50, 0xAD}, unsummed[] = {0x00, 0x00, 0x02, 0x50, 0xAF};
    size_t written;

    CHECK(read_refused(NULL, 0, LIPSYNC_REFUSED_UNDER_5_BYTES));
    for (size_t n = 0; n < 5; n++) CHECK(read_refused(bare, n, LIPSYNC_REFUSED_UNDER_5_BYTES));
    CHECK(lipsync_write_packet(NULL, 0, lend(), MOST, &written) == LIPSYNC_REFUSED_UNDER_5_BYTES && untouched());
    CHECK(read_refused(later, 5, LIPSYNC_REFUSED_VERSION));
    CHECK(read_refused(longer, 5, LIPSYNC_REFUSED_SIZE));
    CHECK(read_refused(unsummed, 5, LIPSYNC_REFUSED_SUM));
    REFUSED_AS(RATE, 0, 0, 0, 0x10); /* rate code 1 */
    REFUSED_AS(RATE, 0, 0, 0, 0xC0); /* rate code 12 */
    REFUSED_AS(RATE, 0, 0, 0, 0x58); /* bit 3 */
    REFUSED_AS(ID, 0, 0, 0, 0x54); /* no ID bytes */
    REFUSED_AS(ID, 0, 0, 0, 0x54, 0, 1, 2, 3, 4, 5, 6, 7, 8, 9, 10, 11, 12, 13, 14, 15, 16, 17, 18, 19);
    REFUSED_AS(ID, 0, 0, 0, 0x54, 1, 1, 2, 3, 4, 5, 6, 7, 8, 9, 10, 11, 12, 13, 14, 15, 16, 17, 18, 19, 20);
    REFUSED_AS(VIDEO, 0, 0, 0, 0x52, 0x09); /* no value */
    REFUSED_AS(VIDEO, 0, 0, 0, 0x52, 0x0A, 0); /* neither 09h nor 11h */
    REFUSED_AS(VIDEO, 0, 0, 0, 0x52, 0x09, 241); /* above 240 */
    REFUSED_AS(VIDEO, 0, 0, 0, 0x52, 0x11, 0); /* one value of two */
    REFUSED_AS(VIDEO, 0, 0, 0, 0x52, 0x11, 0, 241); /* the second above 240 */
    REFUSED_AS(VIDEO, 0, 0, 0, 0x32, 0x11, 0, 0); /* two at 24 Hz */
    REFUSED_AS(VIDEO, 0, 0, 0, 0x82, 0x11, 0, 0); /* two at 48 Hz */
    REFUSED_AS(AUDIO, 0, 0, 0, 0xA1); /* no count; 59.94 Hz, which has 1 and 2 bytes */
    REFUSED_AS(AUDIO, 0, 0, 0, 0xA1, 0x03, 0x01, 0x08, 0); /* count's low bits not 2 */
    REFUSED_AS(AUDIO, 0, 0, 0, 0xA1, 0x02, 0x01); /* no AFDataCount */
    REFUSED_AS(AUDIO, 0, 0, 0, 0xA1, 0x02, 0x03, 0x08, 0); /* mix type 3 */
    REFUSED_AS(AUDIO, 0, 0, 0, 0xA1, 0x02, 0x01, 0x09, 0); /* AFDataCount's low bits not 0 */
    REFUSED_AS(AUDIO, 0, 0, 0, 0xA1, 0x02, 0x01, 0x00); /* no bytes */
    REFUSED_AS(AUDIO, 0, 0, 0, 0x51, 0x02, 0x01, 0x30, 0, 0, 0, 0, 0, 0); /* six bytes */
    REFUSED_AS(AUDIO, 0, 0, 0, 0xA1, 0x02, 0x01, 0x10, 0); /* one byte of two */
    REFUSED_AS(AUDIO, 0, 0, 0, 0xA1, 0x0A, 0x01, 0x08, 0); /* one fingerprint of two */
    REFUSED_AS(AUDIO, 0, 0, 0, 0xB1, 0x02, 0x01, 0x28, 1, 2, 3, 4, 5); /* five bytes at 60 Hz */
    REFUSED_AS(AUDIO, 0, 0, 0, 0xA1, 0x0A, 0x01, 0x08, 0, 0x01, 0x10, 0, 0); /* 1 byte and 2 */
    REFUSED_AS(VIDEO, 0, 0, 0, 0xB3, 0x09, 241, 0x02, 0x01, 0x28, 1, 2, 3, 4, 5); /* 26 before 27 */
    REFUSED_AS(AUDIO, 0, 0, 0, 0xB1, 0x02, 0x01, 0x28, 1, 2, 3, 4, 5, 0); /* 27 before 28 */
    REFUSED_AS(LEFT_OVER, 0, 0, 0, 0x50, 0); /* a byte left over */
    REFUSED_AS(LEFT_OVER, 0, 0, 0, 0xA1, 0x02, 0x01, 0x08, 0, 0);
}

static void packet_refusals(void) {
    const uint8_t bare[] = {0x00, 0x00, 0x02, 0x50, 0xAE};
    unsigned words[12], w[12];
    uint8_t p[32];
    size_t written = 99;
    wrap(bare, 5, words);

    CHECK(lipsync_read_packet(NULL, 0, lend(), MOST, &written) == LIPSYNC_REFUSED_UNDER_7_WORDS && written == 0 && untouched());
    for (size_t n = 0; n < 24; n++) { /* odd sizes, under 7 words, then fewer than count + 7 */
        lay(words, 12, p);
        int number = n % 2 ? LIPSYNC_REFUSED_WORD : n < 14 ? LIPSYNC_REFUSED_UNDER_7_WORDS : LIPSYNC_REFUSED_COUNT;
        CHECK(lipsync_read_packet(p, n, lend(), MOST, &written) == number && written == 0 && untouched());
    }
    const struct { unsigned at, word; int number; } wrong[] = {
        {0, 0x400, LIPSYNC_REFUSED_WORD}, {11, 0x400, LIPSYNC_REFUSED_WORD}, {7, 0xFFFF, LIPSYNC_REFUSED_WORD},
        {0, 0x001, LIPSYNC_REFUSED_START}, {1, 0x3FE, LIPSYNC_REFUSED_START}, {2, 0x000, LIPSYNC_REFUSED_START},
        {3, 0x141, LIPSYNC_REFUSED_KIND}, {3, 0x242, LIPSYNC_REFUSED_KIND}, {4, 0x20B, LIPSYNC_REFUSED_KIND},
        {4, 0x10C, LIPSYNC_REFUSED_KIND},
        {5, 0x105, LIPSYNC_REFUSED_COUNT}, {5, 0x005, LIPSYNC_REFUSED_COUNT}, {5, 0x305, LIPSYNC_REFUSED_COUNT},
        {5, 0x206, LIPSYNC_REFUSED_COUNT}, {5, 0x104, LIPSYNC_REFUSED_COUNT},
        {6, 0x100, LIPSYNC_REFUSED_PARITY}, {6, 0x000, LIPSYNC_REFUSED_PARITY}, {10, 0x3AE, LIPSYNC_REFUSED_PARITY},
        {10, 0x2AE, LIPSYNC_REFUSED_PARITY},
        {8, 0x101, LIPSYNC_REFUSED_CHECKSUM}, {11, 0x051, LIPSYNC_REFUSED_CHECKSUM}, {11, 0x151, LIPSYNC_REFUSED_CHECKSUM},
        {11, 0x252, LIPSYNC_REFUSED_CHECKSUM}};
    for (size_t i = 0; i < sizeof wrong / sizeof wrong[0]; i++) {
        memcpy(w, words, sizeof w);
        w[wrong[i].at] = wrong[i].word;
        size_t size = lay(w, 12, p);
        written = 99;
        CHECK(lipsync_read_packet(p, size, lend(), MOST, &written) == wrong[i].number && written == 0 && untouched());
        try_unwrap(p, size, MOST);
    }
    w[0] = 0x400; /* every word is looked at before the size: 30, not 31 */
    CHECK(lipsync_read_packet(p, lay(w, 1, p), lend(), MOST, &written) == LIPSYNC_REFUSED_WORD && untouched());
    memcpy(w, words, sizeof w);
    w[0] = 1; /* the number furthest left */
    w[3] = w[5] = w[6] = w[11] = 0;
    CHECK(lipsync_read_packet(p, lay(w, 12, p), lend(), MOST, &written) == LIPSYNC_REFUSED_START && untouched());
}

static int unstream_refused(const uint8_t *s, size_t n, int number) {
    size_t written = 99;
    return lipsync_read_transport(s, n, lend(), MOST, &written) == number && written == 0 && untouched();
}

/* each byte of a packet, changed to each other value, is refused with the number of its field */
static void one_byte_changed(const uint8_t *c, size_t n) {
    uint8_t p[2 * MOST];
    size_t size = stream(c, n, p);
    try_unstream(p, size, MOST);
    for (size_t k = 0; k < size; k++) {
        uint8_t right = p[k];
        int number = k < 4 ? LIPSYNC_REFUSED_START_CODE : k < 6 ? LIPSYNC_REFUSED_LENGTH : LIPSYNC_REFUSED_CRC;
        for (unsigned other = 1; other < 256; other++) {
            p[k] = right ^ (uint8_t)other;
            CHECK(unstream_refused(p, size, number));
        }
        p[k] = right;
    }
}

/* the largest length that two bytes count, and one byte more */
static void longest(void) {
    static uint8_t s[65543];
    s[2] = 0x01;
    s[3] = 0xBF;
    s[4] = s[5] = 0xFF;
    seal(s, 65541);
    CHECK(unstream_refused(s, 65541, LIPSYNC_REFUSED_SIZE)); /* a container of 65,531 zeros: version 0, Length 0 */
    s[300] ^= 1;
    CHECK(unstream_refused(s, 65541, LIPSYNC_REFUSED_CRC));
    CHECK(unstream_refused(s, 65540, LIPSYNC_REFUSED_LENGTH) && unstream_refused(s, 65542, LIPSYNC_REFUSED_LENGTH));
    s[4] = s[5] = 0;
    CHECK(unstream_refused(s, 65542, LIPSYNC_REFUSED_LENGTH)); /* 65,536 bytes follow: no length counts them */
}

static void transport(void) {
    const uint8_t bare[] = {0x00, 0x00, 0x02, 0x50, 0xAE};
    const uint8_t packet[] = {0x00, 0x00, 0x01, 0xBF, 0x00, 0x09, 0x00, 0x00, 0x02, 0x50, 0xAE, 0xBE, 0x9D, 0xFC, 0x84};
    uint8_t s[2 * MOST], c[MOST];
    size_t written = 99;
    CHECK(register_after((const uint8_t *)"123456789", 9) == 0x0376E6E7);
    CHECK(lipsync_write_transport(bare, 5, lend(), MOST, &written) == LIPSYNC_OK && written == 15 && holds(packet, 15));
    CHECK(lipsync_read_transport(packet, 15, lend(), MOST, &written) == LIPSYNC_OK && written == 5 && holds(bare, 5));
    CHECK(unstream_refused(NULL, 0, LIPSYNC_REFUSED_UNDER_10_BYTES));
    for (size_t n = 0; n < 15; n++) CHECK(unstream_refused(packet, n, n < 10 ? LIPSYNC_REFUSED_UNDER_10_BYTES : LIPSYNC_REFUSED_LENGTH));
    for (size_t n = 0; n < 5; n++) { /* a right packet around too few bytes: 20, and not 40 to 43 */
        size_t size = stream(bare, n, s);
        CHECK(unstream_refused(s, size, LIPSYNC_REFUSED_UNDER_5_BYTES));
    }
    memcpy(s, packet, 15);
    s[0] = s[4] = s[14] = s[6] = 1; /* the number furthest left, four times */
    CHECK(unstream_refused(s, 9, LIPSYNC_REFUSED_UNDER_10_BYTES) && unstream_refused(s, 15, LIPSYNC_REFUSED_START_CODE));
    s[0] = 0;
    CHECK(unstream_refused(s, 15, LIPSYNC_REFUSED_LENGTH));
    s[4] = 0;
    CHECK(unstream_refused(s, 15, LIPSYNC_REFUSED_CRC));
    seal(s, 15);
    CHECK(unstream_refused(s, 15, LIPSYNC_REFUSED_VERSION));
    one_byte_changed(bare, 5);
    size_t n = full(LIPSYNC_RATE_25, c);
    CHECK(n == LIPSYNC_LARGEST_CONTAINER);
    one_byte_changed(c, n);
    try_stream(c, n, LIPSYNC_LARGEST_TRANSPORT);
    try_stream(c, n, LIPSYNC_LARGEST_TRANSPORT - 1);
    CHECK(lipsync_write_transport(c, n, lend(), LIPSYNC_LARGEST_TRANSPORT, &written) == LIPSYNC_OK && written == LIPSYNC_LARGEST_TRANSPORT);
    longest();
}

/* of the longest recordings, and of a byte more; between guard bytes of their own */
static void longest_recordings(void) {
    static uint8_t s[LIPSYNC_LONGEST_RECORDING + 1], lent[GUARD + LIPSYNC_LONGEST_RECORDING + GUARD], kept[LIPSYNC_LONGEST_RECORDING];
    static const uint8_t smallest[] = {0x01, 0x00, 0x05, 0x00, 0x00, 0x02, 0x50, 0xAE}, refused[] = {0x01, 0x00, 0xFE, 0x00, 0x07, 0xFB};
    uint8_t *out = lent + GUARD;
    for (int turn = 0; turn < 6; turn++) {
        size_t n = LIPSYNC_LONGEST_RECORDING, size, written = 99;
        for (size_t i = 0; i <= n; i++)
            s[i] = turn == 0 ? 0x01 : turn == 1 ? (uint8_t)(i % 2 ? 0xFF : 0x01) : turn == 2 ? refused[i % 6] : turn == 3 ? smallest[i % 8] : turn == 4 ? smallest[(i + 1) % 8] : 0;
        if (turn == 5) memcpy(s + n - 8, smallest, 8); /* at the last place that has room for one */
        int expected = judge_recording(s, n, kept, &size);
        CHECK(expected == (turn < 3 ? LIPSYNC_REFUSED_NO_FIELD : LIPSYNC_OK));
        CHECK(size == (turn < 3 ? 0u : turn == 3 ? n : turn == 4 ? n - 8 : 8));
        memset(lent, FILL, sizeof lent);
        CHECK(lipsync_mend(s, n, out, n, &written) == expected && written == size);
        CHECK(memcmp(out, kept, size) == 0);
        for (size_t i = 0; i < sizeof lent; i++) CHECK((i >= GUARD && i < GUARD + size) || lent[i] == FILL);
        if (size) CHECK(lipsync_mend(s, n, lend(), size < MOST ? size - 1 : MOST, &written) == LIPSYNC_REFUSED_ROOM && written == 0 && untouched());
        written = 99;
        CHECK(lipsync_mend(s, n + 1, out, 0, &written) == LIPSYNC_REFUSED_TOO_LONG && written == 0); /* before 50 and before 12 */
        CHECK(lipsync_mend(s, n + 1, lend(), MOST, &written) == LIPSYNC_REFUSED_TOO_LONG && untouched());
    }
}

static void recordings(void) {
    const uint8_t bare[] = {0x00, 0x00, 0x02, 0x50, 0xAE}, head[] = {0x01, 0x00, 0x05, 0x00, 0x00, 0x02, 0x50, 0xAE};
    uint8_t s[MOST], c[MOST];
    size_t written = 99, n = field(bare, 5, s);
    CHECK(n == 8 && memcmp(s, head, 8) == 0);
    CHECK(lipsync_mend(s, 8, lend(), MOST, &written) == LIPSYNC_OK && written == 8 && holds(head, 8));
    CHECK(lipsync_mend(NULL, 0, lend(), MOST, &written) == LIPSYNC_REFUSED_NO_FIELD && written == 0 && untouched());
    CHECK(lipsync_mend(NULL, 0, NULL, 0, &written) == LIPSYNC_REFUSED_NO_FIELD && lipsync_mend(s, 8, NULL, 0, &written) == LIPSYNC_REFUSED_ROOM);
    for (size_t room = 0; room < 20; room++) try_mend(s, n, room);
    n += field(bare, 5, s + n);
    for (size_t k = 0; k < n; k++) { /* each byte of two fields, to each other value */
        uint8_t right = s[k];
        for (unsigned other = 1; other < 256; other++) {
            s[k] = right ^ (uint8_t)other;
            try_mend(s, n, MOST);
            CHECK(lipsync_mend(s, n, lend(), MOST, &written) == LIPSYNC_OK && written == 8 && holds(head, 8));
        }
        s[k] = right;
    }
    n += field(c, full(LIPSYNC_RATE_25, c), s + n);
    for (size_t cut = 0; cut <= n; cut++) {
        try_mend(s, cut, MOST);
        try_mend(s + cut, n - cut, MOST);
    }
    /* a field within the ID of a container: the outer one is kept whole; with its checksum wrong the inner one */
    const uint8_t outer[] = {0x00, 0x07, 0x00, 0x54, 0x00, 0x01, 0x00, 0x05, 0x00, 0x00, 0x02, 0x50, 0xAE, 0, 0, 0, 0, 0, 0, 0, 0, 0, 0, 0, 0, 0};
    memcpy(c, outer, sizeof outer);
    close_up(c, sizeof outer);
    n = field(c, sizeof outer, s);
    CHECK(lipsync_mend(s, n, lend(), MOST, &written) == LIPSYNC_OK && written == n && holds(s, n));
    s[n - 1] ^= 1;
    CHECK(lipsync_mend(s, n, lend(), MOST, &written) == LIPSYNC_OK && written == 8 && holds(head, 8));
    longest_recordings();
}

static void rooms(void) {
    const uint8_t bare[] = {0x00, 0x00, 0x02, 0x50, 0xAE};
    unsigned words[12];
    uint8_t p[24], q[15];
    size_t written;
    for (size_t room = 0; room < 300; room++) {
        try_container(bare, 5, room);
        try_wrap(bare, 5, room);
        try_unwrap(p, lay(words, wrap(bare, 5, words), p), room);
        try_stream(bare, 5, room);
        try_unstream(q, stream(bare, 5, q), room);
    }
    count = 99;
    CHECK(lipsync_read_container(bare, 5, NULL, 0, &count) == LIPSYNC_REFUSED_ROOM && count == 0);
    CHECK(lipsync_write_packet(bare, 5, NULL, 0, &written) == LIPSYNC_REFUSED_ROOM && written == 0);
    CHECK(lipsync_read_packet(p, 24, NULL, 0, &written) == LIPSYNC_REFUSED_ROOM && written == 0);
    CHECK(lipsync_write_transport(bare, 5, NULL, 0, &written) == LIPSYNC_REFUSED_ROOM && written == 0);
    CHECK(lipsync_read_transport(q, 15, NULL, 0, &written) == LIPSYNC_REFUSED_ROOM && written == 0);
}

/* ---- 01, Video: width, lines, HStart, HStep, the taps before and after a pixel, VStart of both fields, VStep */

enum { PIXELS = 60, MONITORED = 16 };

static const struct { unsigned width, lines, start, step, before, after, first[2], rows; } formats[] = {
    [LIPSYNC_FORMAT_485I] = {720, 525, 123, 8, 0, 0, {60, 323}, 10},
    [LIPSYNC_FORMAT_576I] = {720, 625, 123, 8, 0, 0, {68, 381}, 12},
    [LIPSYNC_FORMAT_720P] = {1280, 750, 256, 13, 1, 0, {117, 0}, 32},
    [LIPSYNC_FORMAT_1080I] = {1920, 1125, 399, 19, 1, 1, {89, 652}, 24},
    [LIPSYNC_FORMAT_1080P] = {1920, 1125, 399, 19, 1, 1, {178, 0}, 48},
    [LIPSYNC_FORMAT_2048X1080P] = {2048, 1125, 463, 19, 1, 1, {206, 0}, 46},
    [LIPSYNC_FORMAT_3840X2160P] = {3840, 2250, 798, 38, 3, 2, {412, 0}, 92},
    [LIPSYNC_FORMAT_4096X2160P] = {4096, 2250, 926, 38, 3, 2, {412, 0}, 92}};

/* a sampling refused with this number: nothing is written */
static int sample_refused(unsigned f, const uint8_t *line, size_t size, size_t room, int number) {
    count = 99;
    return lipsync_sample_line((uint8_t)f, line, size, lend(), room, &count) == number && count == 0 && untouched();
}

static void sampled(unsigned f, uint8_t *line, size_t size, size_t room) {
    uint8_t pixels[PIXELS];
    for (unsigned k = 0; k < PIXELS; k++) {
        unsigned first = formats[f].start + k * formats[f].step - formats[f].before, taps = formats[f].before + 1 + formats[f].after, sum = 0;
        for (unsigned t = 0; t < taps; t++) sum += (line[2 * (first + t)] + 256u * line[2 * (first + t) + 1]) >> 2 & 0xFF;
        pixels[k] = (uint8_t)(sum / taps);
    }
    count = 99;
    int number = lipsync_sample_line((uint8_t)f, line, size, lend(), room, &count);
    seen[number]++;
    CHECK(number == (room < LIPSYNC_LINE_SIZE ? LIPSYNC_REFUSED_ROOM : LIPSYNC_OK));
    CHECK(count == (number == LIPSYNC_OK ? LIPSYNC_LINE_SIZE : 0));
    CHECK(holds(pixels, count));
}

static void lines(void) {
    static uint8_t line[2 * 4096 + 2];
    CHECK(sizeof formats / sizeof formats[0] == LIPSYNC_FORMATS);
    for (unsigned f = 0; f < LIPSYNC_FORMATS; f++)
        for (unsigned turn = 0; turn < 50; turn++) {
            size_t size = 2 * formats[f].width;
            for (size_t i = 0; i < sizeof line; i++) line[i] = turn ? (uint8_t)below(256) : 0xFF;
            sampled(f, line, size, turn < 5 ? LIPSYNC_LINE_SIZE : 40 + below(40));
            CHECK(sample_refused(f, line, size - 2, LIPSYNC_LINE_SIZE, LIPSYNC_REFUSED_LINE_LENGTH));
            CHECK(sample_refused(f, line, size + 1, 0, LIPSYNC_REFUSED_LINE_LENGTH));
        }
    for (unsigned f = LIPSYNC_FORMATS; f < 256; f++) CHECK(sample_refused(f, line, 0, 0, LIPSYNC_REFUSED_FORMAT));
    CHECK(lipsync_sample_line(LIPSYNC_FORMAT_485I, NULL, 0, NULL, 0, &count) == LIPSYNC_REFUSED_LINE_LENGTH);
    CHECK(lipsync_sample_line(9, NULL, 0, NULL, 0, &count) == LIPSYNC_REFUSED_FORMAT);
    CHECK(lipsync_sample_line(LIPSYNC_FORMAT_485I, line, 1440, NULL, 0, &count) == LIPSYNC_REFUSED_ROOM);
}

/* ---- which lines are monitored */

static int field_of(unsigned f, size_t line) {
    if (f >= sizeof formats / sizeof formats[0]) return 0;
    for (int field = 0; field < 2; field++)
        for (unsigned row = 0; row < MONITORED; row++)
            if (formats[f].first[field] != 0 && line == formats[f].first[field] + row * formats[f].rows) return field + 1;
    return 0;
}

/* the last ones would be monitored lines if a number were cut to 32, 16 or 8 bits */
static void monitored(void) {
    const size_t large[] = {SIZE_MAX, SIZE_MAX - 1, ((size_t)1 << 32) + 60, 65536 + 60, 256 + 60};
    for (unsigned f = 0; f < 256; f++) {
        for (size_t line = 0; line <= 3000; line++) CHECK(lipsync_is_monitored((uint8_t)f, line) == (field_of(f, line) != 0));
        for (size_t i = 0; i < sizeof large / sizeof large[0]; i++) CHECK(lipsync_is_monitored((uint8_t)f, large[i]) == (field_of(f, large[i]) != 0));
    }
    for (size_t i = 0; i < sizeof large / sizeof large[0]; i++) CHECK(!lipsync_is_monitored(LIPSYNC_FORMAT_485I, large[i]));
}

/* ---- the header's own functions */

static void header(void) {
    char version[32];
    snprintf(version, sizeof version, "%d.%d.%d", LIPSYNC_VERSION_MAJOR, LIPSYNC_VERSION_MINOR, LIPSYNC_VERSION_PATCH);
    CHECK(strcmp(version, LIPSYNC_VERSION) == 0);
    for (unsigned f = 0; f < LIPSYNC_FORMATS; f++) {
        CHECK(lipsync_width((uint8_t)f) == formats[f].width && lipsync_lines((uint8_t)f) == formats[f].lines);
        for (unsigned line = 0; line < 3000; line++) CHECK(lipsync_monitored((uint8_t)f, line) == field_of(f, line));
    }
    for (unsigned f = LIPSYNC_FORMATS; f < 256; f++)
        CHECK(lipsync_width((uint8_t)f) == 0 && lipsync_lines((uint8_t)f) == 0 && lipsync_monitored((uint8_t)f, 68) == 0);
}

/* every number with its meaning, for tests/host.sh to hold against tools/tables.py */
static void meanings(void) {
    for (unsigned number = 0; number < 256; number++) printf("%u %s\n", number, lipsync_meaning((uint8_t)number));
}

/* ---- damage, from the fixed seed */

static void damaged_transport(const uint8_t *c, size_t n, size_t room) {
    uint8_t s[2 * MOST];
    size_t size = stream(c, n, s);
    switch (below(7)) {
    case 0: s[below((uint32_t)size)] ^= (uint8_t)(1u << below(8)); break;
    case 1: s[below(6)] = (uint8_t)below(256); break;
    case 2: s[below(10)] = (uint8_t)below(256); seal(s, size); break;
    case 3: size -= below((uint32_t)size); break;
    case 4: s[size++] = (uint8_t)below(256); break;
    case 5: memmove(s + 6, s + 7, size - 7); s[5]--; seal(s, --size); break; /* a byte of the container lost */
    default: break;
    }
    try_unstream(s, size, room);
}

/* up to four fields with damage and other bytes between */
static void damaged_recording(size_t room) {
    uint8_t s[MOST], c[MOST];
    size_t n = 0;
    for (unsigned fields = 1 + below(4); fields; fields--) {
        n += field(c, made(c), s + n);
        if (below(4) == 0) n -= below(9);
        if (below(4) == 0)
            for (unsigned i = below(5); i; i--) s[n++] = below(2) ? 0x01 : (uint8_t)below(256);
    }
    if (n && below(2)) s[below((uint32_t)n)] = below(2) ? 0x01 : (uint8_t)below(256);
    try_mend(s, n, room);
}

static void damage(void) {
    uint8_t s[MOST], p[2 * MOST];
    unsigned w[MOST];
    for (int turn = 0; turn < 40000; turn++) {
        size_t n = made(s);
        size_t room = below(10) ? 600 : below(600);
        if (turn % 4 == 0) {
            try_container(s, n, room);
            try_wrap(s, n, room);
            try_stream(s, n, room);
        }
        if (turn % 4) n = damaged(s, n);
        try_container(s, n, room);
        try_wrap(s, n, room);
        try_stream(s, n, room);
        damaged_transport(s, n, room);
        if (turn % 4 == 0) damaged_recording(below(4) ? MOST : below(600));
        size_t words = wrap(s, n, w), size;
        switch (below(6)) {
        case 0: w[below((uint32_t)words)] ^= 1u << below(10); break;
        case 1: w[below((uint32_t)words)] = below(1024); break;
        case 2: w[below((uint32_t)words)] = below(8) ? with_parity(below(256)) : below(65536); break;
        case 3: words = below(8) ? words - 1 : below((uint32_t)words); break;
        case 4: w[words++] = below(1024); break;
        default: break;
        }
        size = lay(w, words, p);
        if (below(20) == 0 && size) size--;
        try_unwrap(p, size, room);
    }
    for (int number = 20; number <= 50; number++)
        if (number != 29 && (number <= 36 || number >= 40) && (number <= 43 || number == 50)) CHECK(seen[number] > 50);
    CHECK(seen[LIPSYNC_OK] > 10000 && seen[LIPSYNC_REFUSED_ROOM] > 1000);
}

int main(int many, char **words) {
    if (many > 1 && strcmp(words[1], "meanings") == 0) {
        meanings();
        return 0;
    }
    figures();
    largest();
    byte_counts();
    container_refusals();
    packet_refusals();
    transport();
    recordings();
    rooms();
    lines();
    monitored();
    header();
    damage();
    printf("%lu\n", checks);
    return 0;
}
