/* A gateway in C: reads one text from standard input (an argument would show in `ps`, password and all), opens the session
 * with libpq 15, and prints what the server says about it. What libpq 15 can't keep as it was meant is refused, never dropped or
 * changed. No password is printed. */
#define _DEFAULT_SOURCE
#include "nyimbrak.h"

#include <libpq-fe.h>
#include <limits.h>
#include <stdio.h>
#include <stdlib.h>
#include <string.h>
#include <unistd.h>

enum rule {
    AS_IT_IS,
    FROM_ITS_PLACE, /* the report shows `_` */
    HOSTS,          /* a line for each, with `tcp:` or `unix:` in front */
    LIST,           /* a line for each */
    NUMBER,         /* libpq reads an int */
    NOTHING         /* no keyword: only the word that asks for nothing can be kept */
};

/* The keys in the report's order, and what libpq 15 has for each. */
static const struct key {
    const char *name, *keyword;
    enum rule rule;
    unsigned unit;       /* NUMBER: how many of libpq's units make one */
    const char *nothing; /* NOTHING: the word */
} keys[] = {
    {"user", "user", AS_IT_IS, 0, NULL},
    {"password", "password", FROM_ITS_PLACE, 0, NULL},
    {"dbname", "dbname", AS_IT_IS, 0, NULL},
    {"options", "options", AS_IT_IS, 0, NULL},
    {"application_name", "application_name", AS_IT_IS, 0, NULL},
    {"sslmode", "sslmode", AS_IT_IS, 0, NULL},
    {"sslnegotiation", NULL, NOTHING, 0, "postgres"},
    {"host", "host", HOSTS, 0, NULL},
    {"hostaddr", "hostaddr", LIST, 0, NULL},
    {"port", "port", LIST, 0, NULL},
    {"connect_timeout", "connect_timeout", NUMBER, 1, NULL},
    {"tcp_user_timeout", "tcp_user_timeout", NUMBER, 1000, NULL}, /* milliseconds */
    {"keepalives", "keepalives", NUMBER, 1, NULL},
    {"keepalives_idle", "keepalives_idle", NUMBER, 1, NULL},
    {"keepalives_interval", "keepalives_interval", NUMBER, 1, NULL},
    {"keepalives_retries", "keepalives_count", NUMBER, 1, NULL},
    {"target_session_attrs", "target_session_attrs", AS_IT_IS, 0, NULL},
    {"channel_binding", "channel_binding", AS_IT_IS, 0, NULL},
    {"load_balance_hosts", NULL, NOTHING, 0, "disable"},
};
enum { KEYS = sizeof keys / sizeof *keys };

static const char *const questions[][2] = {
    {"plan_cache_mode", "SHOW plan_cache_mode"},
    {"application_name", "SHOW application_name"},
    {"current_user", "SELECT current_user"},
    {"current_database", "SELECT current_database()"},
};

/* Room for a line end and for one byte over the limit, so that a text that is too long is seen. */
static uint8_t text[NYIMBRAK_TEXT_MOST + 2], decode[NYIMBRAK_TEXT_MOST], report[NYIMBRAK_REPORT_MOST];

/* What libpq is given, a C string a key; empty where the key is not set. No list is longer than its text and its commas. */
static char given[KEYS][NYIMBRAK_TEXT_MOST + NYIMBRAK_LIST_MOST];

static void refuse(const struct key *key, const char *why) {
    fprintf(stderr, "gateway: %s: %s\n", key->name, why);
    exit(2);
}

/* All of standard input, less one line end behind it. */
static size_t read_text(void) {
    size_t len = 0;
    ssize_t got = 1;
    while (len < sizeof text && (got = read(STDIN_FILENO, text + len, sizeof text - len)) > 0)
        len += (size_t)got;
    if (got < 0) {
        perror("gateway: standard input");
        exit(2);
    }
    return len > 0 && text[len - 1] == '\n' ? len - 1 : len;
}

static const struct key *find_key(const char *name, size_t len) {
    const struct key *key = keys;
    while (strlen(key->name) != len || memcmp(key->name, name, len) != 0)
        key++;
    return key;
}

static int hex(char digit) {
    return digit <= '9' ? digit - '0' : digit - 'A' + 10;
}

/* A value of the report with each %XX as its byte, and a NUL behind it. */
static size_t unescape(const char *from, const char *end, char *to) {
    size_t len = 0;
    while (from < end) {
        int escaped = *from == '%';
        to[len++] = escaped ? (char)(hex(from[1]) * 16 + hex(from[2])) : *from;
        from += escaped ? 3 : 1;
    }
    to[len] = '\0';
    return len;
}

/* Puts a value behind those that the key has already, as libpq's lists are written. */
static void give(const struct key *key, const char *value, size_t len) {
    char *to = given[key - keys];
    size_t had = strlen(to);
    if (len == 0)
        refuse(key, "libpq takes an empty value for one that is not set");
    if (memchr(value, '\0', len) != NULL)
        refuse(key, "a value with a NUL byte can't be a C string");
    if (had + 1 + len >= sizeof given[0])
        refuse(key, "too long");
    if (had > 0)
        to[had++] = ',';
    memcpy(to + had, value, len);
}

static void give_host(const struct key *key, const char *value, size_t len) {
    const char *host = strchr(value, ':') + 1;
    len -= (size_t)(host - value);
    if (memchr(host, ',', len) != NULL)
        refuse(key, "libpq would take the comma for the end of a host");
    if (*host == '@')
        refuse(key, "libpq would take the @ for a socket's");
    give(key, host, len);
}

static void give_number(const struct key *key, const char *value) {
    char digits[24];
    unsigned long long number = strtoull(value, NULL, 10);
    if (number > INT_MAX / key->unit)
        refuse(key, "more than an int can hold for libpq");
    give(key, digits, (size_t)snprintf(digits, sizeof digits, "%llu", number * key->unit));
}

static void give_password(const struct key *key, size_t text_len) {
    uint64_t place = nyimbrak_place(text, text_len, decode, sizeof decode, NYIMBRAK_PASSWORD);
    give(key, (const char *)decode + NYIMBRAK_PLACE_START(place), NYIMBRAK_PLACE_LENGTH(place));
}

/* One line `key=value` of the report, up to its end. */
static void give_line(const char *line, const char *end, size_t text_len) {
    static char value[NYIMBRAK_TEXT_MOST + sizeof "unix:"];
    const char *sign = memchr(line, '=', (size_t)(end - line));
    const struct key *key = find_key(line, (size_t)(sign - line));
    size_t len = unescape(sign + 1, end, value);
    switch (key->rule) {
    case AS_IT_IS:
    case LIST:
        give(key, value, len);
        break;
    case FROM_ITS_PLACE:
        give_password(key, text_len);
        break;
    case HOSTS:
        give_host(key, value, len);
        break;
    case NUMBER:
        give_number(key, value);
        break;
    case NOTHING:
        if (strcmp(value, key->nothing) != 0)
            refuse(key, "libpq 15 can't do this");
    }
}

static PGconn *open_session(void) {
    const char *keywords[KEYS + 1], *values[KEYS + 1];
    size_t n = 0;
    for (size_t k = 0; k < KEYS; k++)
        if (*given[k] != '\0') {
            keywords[n] = keys[k].keyword;
            values[n++] = given[k];
        }
    keywords[n] = values[n] = NULL;
    return PQconnectdbParams(keywords, values, 0);
}

/* 0 where the server answers. */
static int ask(PGconn *session, const char *name, const char *question) {
    PGresult *answer = PQexec(session, question);
    int failed = PQresultStatus(answer) != PGRES_TUPLES_OK;
    if (!failed)
        printf("%s=%s\n", name, PQgetvalue(answer, 0, 0));
    PQclear(answer);
    return failed;
}

int main(void) {
    size_t len = read_text();
    uint32_t answer = nyimbrak_read(text, len, decode, sizeof decode, report, sizeof report);
    if (answer >= NYIMBRAK_REFUSED) {
        fprintf(stderr, "gateway: refused %u\n", answer - NYIMBRAK_REFUSED);
        return 2;
    }
    for (const char *line = (char *)report, *behind = line + answer, *end; line < behind; line = end + 1) {
        end = memchr(line, '\n', (size_t)(behind - line));
        give_line(line, end, len);
    }
    PGconn *session = open_session();
    explicit_bzero(text, sizeof text);
    explicit_bzero(decode, sizeof decode);
    explicit_bzero(given, sizeof given);

    int failed = PQstatus(session) != CONNECTION_OK;
    for (size_t q = 0; !failed && q < sizeof questions / sizeof *questions; q++)
        failed = ask(session, questions[q][0], questions[q][1]);
    if (failed)
        fprintf(stderr, "gateway: %s", PQerrorMessage(session));
    PQfinish(session);
    return failed;
}
