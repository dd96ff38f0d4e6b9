/* Reads each text by libpq 15's PQconninfoParse and by us; prints a row of docs/DIFFERENCES.md for each that the two read otherwise,
 * and tells on standard error which they read alike. Settings stand as the report has them, without our defaults; libpq's lists are
 * split at commas, as it does itself when it connects. These passwords are nobody's, so they are shown. */
#include "nyimbrak.h"

#include <libpq-fe.h>
#include <stdio.h>
#include <string.h>

static const char *const texts[] = {
    /* where a key, a value and a text end */
    "", "=x", "user=a =b", "user", "user=", "user=''", "user= dbname=x", "user='a'dbname=b", "user=a''b", "user='a''b'", "user='a\\'b'",
    "user=\\", "user=a\\", "user='a\\", "user=a\\ b", "user=a\tb=c", "user=a\xC2\xA0" "dbname=b", "user=\xFF",
    /* a key given twice */
    "user=a user=b", "host=a host=b", "port=1 port=2", "connect_timeout=5 connect_timeout=0",
    /* keys and words that one of the two has */
    "USER=a", "keepalives_retries=3", "keepalives_count=3", "sslnegotiation=direct", "load_balance_hosts=random",
    "client_encoding=UTF8", "service=s", "ssl=true", "sslmode=allow", "target_session_attrs=primary", "port=65536",
    /* the host part of a URI */
    "postgres://", "postgresql://", "postgres://h", "postgres://h:", "postgres://h:1", "postgres://h:1,i:2", "postgres://:1", "postgres://,",
    "postgres://h:1%2C2", "postgres://[::1]:1", "postgres://[]:1", "postgres://[::1", "postgres://[::1]x", "postgres://[x]:1",
    "postgres://%2Frun:1", "postgres:///run",
    /* credentials */
    "postgres://a:b@h:1", "postgres://@h:1", "postgres://a:@h:1", "postgres://a:b@c@h:1", "postgres://a:b/c@h:1",
    "postgres://h:1/d?options=a@b",
    /* path and parameters */
    "postgres://h:1/", "postgres://h:1/d/e", "postgres://h:1/d?", "postgres://h?x", "postgres://h:1?user=a&", "postgres://h:1?&user=a",
    "postgres://h:1?user=a=b", "postgres://h:1?user=", "postgres://h:1?us%65r=a+b", "postgres://h:1?host=i", "postgres://h:1?port=2",
    "postgres://h:1?dbname=a&dbname=b", "postgres:///?host=a,b", "postgres://h:1?ssl=true",
    /* percent */
    "postgres://h:1/%41", "postgres://h:1/%4", "postgres://h:1/%%41", "postgres://h:1/%00", "postgres://h:1/%FF", "postgres://a:%FF@h:1",
};

static const char *const keys[] = {
    "user", "password", "dbname", "options", "application_name", "sslmode", "sslnegotiation", "host", "hostaddr", "port",
    "connect_timeout", "tcp_user_timeout", "keepalives", "keepalives_idle", "keepalives_interval", "keepalives_retries",
    "target_session_attrs", "channel_binding", "load_balance_hosts",
};
enum { KEYS = sizeof keys / sizeof *keys };

static uint8_t decode[NYIMBRAK_TEXT_MOST], report[NYIMBRAK_REPORT_MOST + 1], defaults[NYIMBRAK_REPORT_MOST + 1];

/* Appends one setting as the report has it, in backquotes. */
static void show(char *shown, const char *key, const char *value, size_t len) {
    char *to = shown + strlen(shown);
    to += sprintf(to, "%s`%s=", *shown == '\0' ? "" : " ", key);
    for (size_t i = 0; i < len; i++)
        to += sprintf(to, value[i] > 0x20 && value[i] < 0x7F && value[i] != '%' ? "%c" : "%%%02X", (unsigned char)value[i]);
    strcpy(to, "`");
}

static void show_option(char *shown, const PQconninfoOption *option) {
    const char *value = option->val;
    int list = strcmp(option->keyword, "host") == 0 || strcmp(option->keyword, "hostaddr") == 0 || strcmp(option->keyword, "port") == 0;
    while (list && strchr(value, ',') != NULL) {
        show(shown, option->keyword, value, strcspn(value, ","));
        value = strchr(value, ',') + 1;
    }
    show(shown, option->keyword, value, strlen(value));
}

static size_t key_index(const char *name) {
    size_t k = 0;
    while (k < KEYS && strcmp(keys[k], name) != 0)
        k++;
    return k;
}

/* Our keys in our order, then those that only libpq has. */
static void read_by_libpq(const char *text, char *shown) {
    PQconninfoOption *options = PQconninfoParse(text, NULL);
    if (options == NULL) {
        strcpy(shown, "refused");
        return;
    }
    for (size_t k = 0; k <= KEYS; k++)
        for (const PQconninfoOption *option = options; option->keyword != NULL; option++)
            if (option->val != NULL && key_index(option->keyword) == k)
                show_option(shown, option);
    PQconninfoFree(options);
}

static void read_by_us(const char *text, char *shown) {
    size_t len = strlen(text);
    uint32_t answer = nyimbrak_read((const uint8_t *)text, len, decode, sizeof decode, report, sizeof report - 1);
    if (answer >= NYIMBRAK_REFUSED) {
        sprintf(shown, "refused, %u", answer - NYIMBRAK_REFUSED);
        return;
    }
    report[answer] = '\0';
    for (char *line = (char *)report, *end; (end = strchr(line, '\n')) != NULL; line = end + 1) {
        char with_end[NYIMBRAK_REPORT_MOST + 1];
        sprintf(with_end, "%.*s", (int)(end + 1 - line), line);
        if (strstr((char *)defaults, with_end) != NULL)
            continue;
        if (strncmp(line, "password=", 9) == 0) {
            uint64_t place = nyimbrak_place((const uint8_t *)text, len, decode, sizeof decode, NYIMBRAK_PASSWORD);
            show(shown, "password", (char *)decode + NYIMBRAK_PLACE_START(place), NYIMBRAK_PLACE_LENGTH(place));
            continue;
        }
        int kind = strncmp(line, "host=", 5) == 0;
        const char *value = strchr(line, kind ? ':' : '=') + 1;
        sprintf(shown + strlen(shown), "%s`%.*s=%.*s`", *shown == '\0' ? "" : " ", (int)strcspn(line, "="), line, (int)(end - value), value);
    }
}

int main(void) {
    static char theirs[4 * NYIMBRAK_REPORT_MOST], ours[4 * NYIMBRAK_REPORT_MOST];
    size_t otherwise = 0, count = sizeof texts / sizeof *texts;
    if (PQlibVersion() / 10000 != 15) {
        fprintf(stderr, "libpq is %d, not 15\n", PQlibVersion() / 10000);
        return 3;
    }
    uint32_t len = nyimbrak_read((const uint8_t *)"", 0, decode, sizeof decode, defaults, sizeof defaults - 1);
    defaults[len] = '\0';
    for (size_t t = 0; t < count; t++) {
        *theirs = *ours = '\0';
        read_by_libpq(texts[t], theirs);
        read_by_us(texts[t], ours);
        if (strcmp(theirs, ours) == 0 || (*theirs == 'r' && *ours == 'r')) {
            fprintf(stderr, "alike: %s\n", texts[t]);
            continue;
        }
        otherwise++;
        printf("| `");
        for (const char *c = texts[t]; *c != '\0'; c++)
            printf(*c >= 0x20 && *c < 0x7F ? "%c" : "<%02X>", (unsigned char)*c);
        printf("` | %s | %s |\n", *theirs == '\0' ? "nothing" : theirs, *ours == '\0' ? "nothing" : ours);
    }
    fprintf(stderr, "%zu texts, %zu read otherwise\n", count, otherwise);
    return 0;
}
