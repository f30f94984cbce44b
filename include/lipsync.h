/*
 * The lip-sync card's containers, ancillary and transport packets, recordings, line sampling and monitored lines, for a host in C or C++ on x86-64 Linux. Link
 * with liblipsync.a or liblipsync.so (`make lib`).
 *
 * Every call but lipsync_is_monitored, which takes two numbers and has no refusals, has the form
 *     uint8_t f(.., const uint8_t *in, size_t length, uint8_t *out, size_t room, size_t *written)
 * takes what it is given, checks it, and ends. It returns 0 or the number of the first refusal that applies, in the order given at the call.
 * A success writes the first *written bytes of out and no others. A refusal leaves out as it was and sets *written to 0.
 * `in` and `out` may be null where their length or room is 0. `written` is never null: a call with a null `written` is an error that no call checks.
 * The bytes read, the buffer written and `written` do not overlap. Calls keep nothing, so they may run at the same time.
 *
 * The eight calls are proved to answer as document 01 says, with requests A2, A5 and A8 of 02. The inline functions of this header are plain C and only tested.
 */
#ifndef LIPSYNC_H
#define LIPSYNC_H

#include <stdbool.h>
#include <stddef.h>
#include <stdint.h>

#ifdef __cplusplus
extern "C" {
#endif

/*
 * A new MAJOR changes what a program written for this header sees: a call, a number's meaning or a place. A new MINOR only adds calls, numbers or places,
 * and a new PATCH changes neither. While MAJOR is 0 a new MINOR may do what a new MAJOR may: so the shared library's name has both, liblipsync.so.MAJOR.MINOR.
 */
#define LIPSYNC_VERSION_MAJOR 0
#define LIPSYNC_VERSION_MINOR 5
#define LIPSYNC_VERSION_PATCH 0
#define LIPSYNC_VERSION "0.5.0"

/* What a call returns. lipsync_meaning() has the words. */
enum {
    LIPSYNC_OK = 0,

    LIPSYNC_REFUSED_FORMAT = 1,         /* no format of this number */
    LIPSYNC_REFUSED_LINE_LENGTH = 2,    /* line length not 2 x width */
    LIPSYNC_REFUSED_ROOM = 12,          /* output too short */

    LIPSYNC_REFUSED_UNDER_5_BYTES = 20, /* a container's: */
    LIPSYNC_REFUSED_VERSION = 21,
    LIPSYNC_REFUSED_SIZE = 22,
    LIPSYNC_REFUSED_SUM = 23,
    LIPSYNC_REFUSED_RATE = 24,
    LIPSYNC_REFUSED_ID = 25,
    LIPSYNC_REFUSED_VIDEO = 26,
    LIPSYNC_REFUSED_AUDIO = 27,         /* also fingerprints of unequal counts, or of one that the rate's cadence does not have */
    LIPSYNC_REFUSED_LEFT_OVER = 28,

    LIPSYNC_REFUSED_WORD = 30,          /* a packet's: */
    LIPSYNC_REFUSED_UNDER_7_WORDS = 31,
    LIPSYNC_REFUSED_START = 32,
    LIPSYNC_REFUSED_KIND = 33,
    LIPSYNC_REFUSED_COUNT = 34,
    LIPSYNC_REFUSED_PARITY = 35,
    LIPSYNC_REFUSED_CHECKSUM = 36,

    LIPSYNC_REFUSED_UNDER_10_BYTES = 40, /* a transport packet's: */
    LIPSYNC_REFUSED_START_CODE = 41,
    LIPSYNC_REFUSED_LENGTH = 42,
    LIPSYNC_REFUSED_CRC = 43,

    LIPSYNC_REFUSED_NO_FIELD = 50,      /* a recording's: no place in it starts an acceptable field */
    LIPSYNC_REFUSED_TOO_LONG = 51
};

/* Sizes in bytes. */
enum {
    LIPSYNC_LINE_SIZE = 60,          /* a line sampled */
    LIPSYNC_LARGEST_CONTAINER = 254, /* header 4, ID 21, video 3, audio 225, checksum 1 */
    LIPSYNC_LARGEST_PACKET = 522,    /* the largest container's: 2 x 254 + 14 */
    LIPSYNC_LARGEST_TRANSPORT = 264, /* the largest container's: 254 + 10 */
    LIPSYNC_LONGEST_RECORDING = 65536,
    LIPSYNC_FLAT_SIZE = 283          /* a container's contents, flat */
};

/*
 * The formats. Pixels count from 0, lines from 1. A field has 16 monitored lines: its first and every step-th after it.
 *
 *                    width  lines   monitored lines of field 1   of field 2
 *   0  485i            720    525    60 to 210, step 10          323 to 473, step 10
 *   1  576i            720    625    68 to 248, step 12          381 to 561, step 12
 *   2  720p           1280    750   117 to 597, step 32
 *   3  1080i          1920   1125    89 to 449, step 24          652 to 1012, step 24
 *   4  1080p          1920   1125   178 to 898, step 48
 *   5  2048x1080p     2048   1125   206 to 896, step 46
 *   6  3840x2160p     3840   2250   412 to 1792, step 92
 *   7  4096x2160p     4096   2250   412 to 1792, step 92
 */
enum {
    LIPSYNC_FORMAT_485I = 0,
    LIPSYNC_FORMAT_576I = 1,
    LIPSYNC_FORMAT_720P = 2,
    LIPSYNC_FORMAT_1080I = 3,
    LIPSYNC_FORMAT_1080P = 4,
    LIPSYNC_FORMAT_2048X1080P = 5,
    LIPSYNC_FORMAT_3840X2160P = 6,
    LIPSYNC_FORMAT_4096X2160P = 7,
    LIPSYNC_FORMATS = 8
};

/* Rate codes, and the frames a second that they stand for. */
enum {
    LIPSYNC_RATE_23_98 = 2,  /* 24000/1001 */
    LIPSYNC_RATE_24 = 3,
    LIPSYNC_RATE_47_95 = 4,  /* 48000/1001 */
    LIPSYNC_RATE_25 = 5,
    LIPSYNC_RATE_29_97 = 6,  /* 30000/1001 */
    LIPSYNC_RATE_30 = 7,
    LIPSYNC_RATE_48 = 8,
    LIPSYNC_RATE_50 = 9,
    LIPSYNC_RATE_59_94 = 10, /* 60000/1001 */
    LIPSYNC_RATE_60 = 11
};

/* Mix types. */
enum {
    LIPSYNC_MIX_MONO = 1,
    LIPSYNC_MIX_STEREO = 2, /* L, R */
    LIPSYNC_MIX_5_1 = 5     /* L, R, C, Ls, Rs */
};

/* Where a container's contents stand in their 283 bytes. Absent parts and unused places are zero. */
enum {
    LIPSYNC_FLAT_COUNTER = 0,      /* the sequence counter */
    LIPSYNC_FLAT_RATE = 1,         /* a rate code */
    LIPSYNC_FLAT_HAS_ID = 2,       /* 1 or 0 */
    LIPSYNC_FLAT_ID = 3,           /* 20 bytes */
    LIPSYNC_FLAT_VIDEO_COUNT = 23, /* 0; 1 of a progressive format; 2 of an interlaced one */
    LIPSYNC_FLAT_VIDEO = 24,       /* two values, each 0 to 240; field 1 first */
    LIPSYNC_FLAT_AUDIO_COUNT = 26, /* 0 to 32 */
    LIPSYNC_FLAT_AUDIO = 27,       /* 32 fingerprints, of which the first AUDIO_COUNT are there; number k begins at FLAT_AUDIO + k x FLAT_AUDIO_STEP */
    LIPSYNC_FLAT_AUDIO_STEP = 8,
    /* within a fingerprint */
    LIPSYNC_FLAT_AUDIO_ID = 0,     /* 0 to 31 */
    LIPSYNC_FLAT_AUDIO_MIX = 1,    /* a mix type */
    LIPSYNC_FLAT_AUDIO_SIZE = 2,   /* how many of the five bytes are there: one count for all, one that the rate's cadence has */
    LIPSYNC_FLAT_AUDIO_BYTES = 3   /* five bytes, oldest first; the lowest bit of a byte is the oldest */
};

/*
 * Reads a container and writes its contents, flat: *written is LIPSYNC_FLAT_SIZE.
 * Refusals: 20 to 28, then 12 where room is under LIPSYNC_FLAT_SIZE.
 */
uint8_t lipsync_read_container(const uint8_t *container, size_t length, uint8_t *out, size_t room, size_t *written);

/*
 * Wraps a container in an ancillary packet, two bytes for each word, low byte first: *written is 2 x length + 14.
 * Refusals: 20 to 28, then 12 where room is under 2 x length + 14; LIPSYNC_LARGEST_PACKET is always enough.
 */
uint8_t lipsync_write_packet(const uint8_t *container, size_t length, uint8_t *out, size_t room, size_t *written);

/*
 * Takes the container's bytes out of an ancillary packet, lent as two bytes for each word, low byte first: *written is their number, length / 2 - 7.
 * Refusals: 30 to 36, 20 to 28, then 12 where room is under that number; LIPSYNC_LARGEST_CONTAINER is always enough.
 */
uint8_t lipsync_read_packet(const uint8_t *words, size_t length, uint8_t *out, size_t room, size_t *written);

/*
 * Wraps a container in a packet for an MPEG-2 transport stream: 00 00 01 BF, two bytes of length, the high one first, the container, four bytes of CRC_32.
 * *written is length + 10. Refusals: 20 to 28, then 12 where room is under length + 10; LIPSYNC_LARGEST_TRANSPORT is always enough.
 */
uint8_t lipsync_write_transport(const uint8_t *container, size_t length, uint8_t *out, size_t room, size_t *written);

/*
 * Takes the container's bytes out of such a packet: *written is their number, length - 10. A right packet with one byte changed, whichever and to whatever, is refused.
 * Refusals: 40 to 43, 20 to 28, then 12 where room is under that number; LIPSYNC_LARGEST_CONTAINER is always enough.
 */
uint8_t lipsync_read_transport(const uint8_t *packet, size_t length, uint8_t *out, size_t room, size_t *written);

/*
 * Mends a recording: fields of 01h, two bytes of length, the high one first, and a container of that many bytes. At each place a whole field whose container
 * is accepted is kept and passed over; otherwise one byte is dropped and the next place tried. out gets the kept fields joined, *written is their bytes.
 * Refusals: 51 where length is above LIPSYNC_LONGEST_RECORDING, 50, then 12 where room is under the bytes kept; length is always enough. With less, what comes
 * behind the first bytes that are dropped after a field may be gone through twice.
 */
uint8_t lipsync_mend(const uint8_t *recording, size_t length, uint8_t *out, size_t room, size_t *written);

/*
 * Samples one line of a format: *written is LIPSYNC_LINE_SIZE. The line is lent as two bytes for each luma sample, low byte first; bits 15 to 10 are ignored,
 * and a sample counts as its bits 9 to 2, that is, the upper eight of ten. Which line it is plays no part.
 * Refusals: 1 format, 2 length not 2 x width, then 12 where room is under LIPSYNC_LINE_SIZE.
 */
uint8_t lipsync_sample_line(uint8_t format, const uint8_t *line, size_t length, uint8_t *out, size_t room, size_t *written);

/*
 * Whether a line of a format, counted from 1, is monitored, in either field: false where there is no such format or no such line. Never refuses.
 * A session, or a feed for `card`, need not be given a line for which this is false: no other answer changes.
 */
bool lipsync_is_monitored(uint8_t format, size_t line);

/* What a call's number means, in words. */
static inline const char *lipsync_meaning(uint8_t number) {
    switch (number) {
    case LIPSYNC_OK: return "accepted";
    case LIPSYNC_REFUSED_FORMAT: return "no format of this number";
    case LIPSYNC_REFUSED_LINE_LENGTH: return "line length not 2 x width";
    case LIPSYNC_REFUSED_ROOM: return "output too short";
    case LIPSYNC_REFUSED_UNDER_5_BYTES: return "container under 5 bytes";
    case LIPSYNC_REFUSED_VERSION: return "container's version not 0";
    case LIPSYNC_REFUSED_SIZE: return "container's size not Length + 3";
    case LIPSYNC_REFUSED_SUM: return "container's checksum";
    case LIPSYNC_REFUSED_RATE: return "container's rate code or bit 3";
    case LIPSYNC_REFUSED_ID: return "container's ID part";
    case LIPSYNC_REFUSED_VIDEO: return "container's video part";
    case LIPSYNC_REFUSED_AUDIO: return "container's audio part";
    case LIPSYNC_REFUSED_LEFT_OVER: return "container's bytes left over";
    case LIPSYNC_REFUSED_WORD: return "packet of odd size or with a word above 3FFh";
    case LIPSYNC_REFUSED_UNDER_7_WORDS: return "packet under 7 words";
    case LIPSYNC_REFUSED_START: return "packet's first three words";
    case LIPSYNC_REFUSED_KIND: return "packet's fourth or fifth word";
    case LIPSYNC_REFUSED_COUNT: return "packet's count word's parity, or words not count + 7";
    case LIPSYNC_REFUSED_PARITY: return "packet's user word's parity";
    case LIPSYNC_REFUSED_CHECKSUM: return "packet's checksum";
    case LIPSYNC_REFUSED_UNDER_10_BYTES: return "transport packet under 10 bytes";
    case LIPSYNC_REFUSED_START_CODE: return "transport packet's start code";
    case LIPSYNC_REFUSED_LENGTH: return "transport packet's length";
    case LIPSYNC_REFUSED_CRC: return "transport packet's CRC";
    case LIPSYNC_REFUSED_NO_FIELD: return "no acceptable field in the recording";
    case LIPSYNC_REFUSED_TOO_LONG: return "recording longer than 65,536 bytes";
    default: return "no number of these calls";
    }
}

/* A format's width in samples; 0 where there is no such format. */
static inline unsigned lipsync_width(uint8_t format) {
    static const uint16_t widths[LIPSYNC_FORMATS] = {720, 720, 1280, 1920, 1920, 2048, 3840, 4096};
    return format < LIPSYNC_FORMATS ? widths[format] : 0;
}

/* A format's number of lines; 0 where there is no such format. */
static inline unsigned lipsync_lines(uint8_t format) {
    static const uint16_t lines[LIPSYNC_FORMATS] = {525, 625, 750, 1125, 1125, 1125, 2250, 2250};
    return format < LIPSYNC_FORMATS ? lines[format] : 0;
}

/* The field of which a line is a monitored one: 1 (a progressive format's frame too) or 2; 0 where the line is not monitored, or there is no such format. */
static inline int lipsync_monitored(uint8_t format, unsigned line) {
    static const uint16_t field_2[LIPSYNC_FORMATS] = {323, 381, 0, 652, 0, 0, 0, 0};
    if (!lipsync_is_monitored(format, line)) return 0;
    return field_2[format] != 0 && line >= field_2[format] ? 2 : 1;
}

#ifdef __cplusplus
}
#endif

#endif
