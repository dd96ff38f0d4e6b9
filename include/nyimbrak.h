/* Nyimbrak: PostgreSQL connection strings read into a report and into values, by proved code.
 *
 * Link with libnyimbrak.a (`make staticlib`), on x86-64 Linux and a processor of x86-64-v2 or later. The archive needs nothing but
 * what is lent to it, and memcpy and memset of the C library: it allocates nothing, keeps nothing between calls, calls nothing
 * else, and may be called from any number of threads at once.
 *
 * What a C caller still owes, at every call: each pointer is not null, also where its length is 0; it points to as many bytes as
 * its length says; no two of the buffers overlap, and nothing else reads or writes them before the call returns. Everything else
 * is the library's to refuse: any bytes and any lengths may be given.
 */
#ifndef NYIMBRAK_H
#define NYIMBRAK_H

#include <stddef.h>
#include <stdint.h>

#ifdef __cplusplus
extern "C" {
#endif

/* The longest text, in bytes. A decode buffer as long as the text is always enough. */
#define NYIMBRAK_TEXT_MOST 4096
/* No report is longer: a report buffer of so many bytes is always enough. */
#define NYIMBRAK_REPORT_MOST 13795
/* The most hosts, hostaddrs and ports, each. */
#define NYIMBRAK_LIST_MOST 16

/* The numbers that are handed back. */
enum nyimbrak_number {
    NYIMBRAK_ACCEPTED = 0,
    NYIMBRAK_TEXT_TOO_LONG = 1,      /* the text is longer than 4,096 bytes */
    NYIMBRAK_DECODE_TOO_SHORT = 2,   /* the decode buffer is shorter than the text */
    NYIMBRAK_NOT_UTF8 = 3,           /* the text is not UTF-8 */
    NYIMBRAK_UNKNOWN_KEY = 4,        /* a key that is none of the nineteen */
    NYIMBRAK_VALUE_NOT_ALLOWED = 5,  /* a known key with a value that it can't have; the answer names the key */
    NYIMBRAK_NO_EQUALS = 6,          /* another character where `=` must stand */
    NYIMBRAK_ENDS_BEFORE_EQUALS = 7, /* the text ends where `=` must stand */
    NYIMBRAK_EMPTY_VALUE = 8,        /* an unquoted value that is empty */
    NYIMBRAK_QUOTE_NOT_CLOSED = 9,   /* a quoted value without its closing quote */
    NYIMBRAK_BRACKET = 10,           /* a URI host in brackets without `]`, or with something but `:` after it */
    NYIMBRAK_PARAMETER_NO_EQUALS = 11, /* a URI parameter without `=` */
    NYIMBRAK_DECODED_NOT_UTF8 = 12,  /* not UTF-8 after percent decoding */
    NYIMBRAK_TOO_MANY_HOSTS = 13,    /* a 17th host */
    NYIMBRAK_TOO_MANY_HOSTADDRS = 14, /* a 17th hostaddr */
    NYIMBRAK_TOO_MANY_PORTS = 15,    /* a 17th port */
    NYIMBRAK_REPORT_TOO_SHORT = 16,  /* the text is accepted, and the report buffer is shorter than its report */
    NYIMBRAK_RECORD_UNSOUND = 17     /* a record that lies outside its buffer: none of these functions ever answers it */
};

/* The keys that hold a text. */
enum nyimbrak_key {
    NYIMBRAK_USER = 1,
    NYIMBRAK_PASSWORD = 2,
    NYIMBRAK_DBNAME = 3,
    NYIMBRAK_OPTIONS = 4,
    NYIMBRAK_APPLICATION_NAME = 5
};

/* What each function leaves in the decode buffer. Refusals 1 and 2 touch nothing. Any other refusal of a text (3 to 15) sets the
 * bytes up to the text's length to zero. An accepted text leaves there the values of user, password, dbname, options,
 * application_name and host, packed in the order of reading, then zeros up to the text's length; so it is with 16, too. Bytes
 * behind the text's length never change. So a decode buffer may hold a password: clear it when the session is open. */

/* Reads a text and writes its report: one line `key=value` for each setting, a set password as `_`. Answers the report's length,
 * or NYIMBRAK_REFUSED plus the number of the refusal. Bytes of the report buffer behind the report stay as they were, and no
 * refusal touches any. No report is longer than NYIMBRAK_REPORT_MOST, so no length is ever taken for a refusal. */
#define NYIMBRAK_REFUSED 1000000u
uint32_t nyimbrak_read(const uint8_t *text, size_t text_len, uint8_t *decode, size_t decode_len,
                       uint8_t *report, size_t report_len);

/* Reads a text and answers number + 2^8 * key + 2^16 * count: the number above; the number of the key that 5 is about, 1 to 19,
 * else 0; the count of settings that were applied, of an accepted text all. */
#define NYIMBRAK_NUMBER(answer) ((unsigned)((answer) & 255))
#define NYIMBRAK_KEY(answer) ((unsigned)((answer) >> 8 & 255))
#define NYIMBRAK_COUNT(answer) ((unsigned)((answer) >> 16))
uint64_t nyimbrak_answer(const uint8_t *text, size_t text_len, uint8_t *decode, size_t decode_len);

/* Reads a text and answers where the value of one key, 1 to 5, lies in the decode buffer: 2^62 + 2^16 * start + length where it is
 * set, 0 where it is not (and for every other key), 2^63 plus the number where the text is refused. */
#define NYIMBRAK_PLACE_REFUSED(place) ((int)((place) >> 63))
#define NYIMBRAK_PLACE_NUMBER(place) ((unsigned)((place) & 255))
#define NYIMBRAK_PLACE_SET(place) ((int)((place) >> 62 & 1))
#define NYIMBRAK_PLACE_START(place) ((size_t)((place) >> 16 & 65535))
#define NYIMBRAK_PLACE_LENGTH(place) ((size_t)((place) & 65535))
uint64_t nyimbrak_place(const uint8_t *text, size_t text_len, uint8_t *decode, size_t decode_len, uint32_t key);

#ifdef __cplusplus
}
#endif

#endif
