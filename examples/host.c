/* A host in C: each line of standard input is a text. It prints the report, and how long the password is that it would open a
 * session with; or it names the refusal in plain words. */
#include "nyimbrak.h"

#include <stdio.h>
#include <string.h>

static const char *const reasons[] = {
    [NYIMBRAK_ACCEPTED] = "accepted",
    [NYIMBRAK_TEXT_TOO_LONG] = "the text is longer than 4,096 bytes",
    [NYIMBRAK_DECODE_TOO_SHORT] = "the decode buffer is shorter than the text",
    [NYIMBRAK_NOT_UTF8] = "the text is not UTF-8",
    [NYIMBRAK_UNKNOWN_KEY] = "there is no such key",
    [NYIMBRAK_VALUE_NOT_ALLOWED] = "a key can't have the value that is given",
    [NYIMBRAK_NO_EQUALS] = "another character stands where `=` must stand",
    [NYIMBRAK_ENDS_BEFORE_EQUALS] = "the text ends where `=` must stand",
    [NYIMBRAK_EMPTY_VALUE] = "a value without quotes is empty",
    [NYIMBRAK_QUOTE_NOT_CLOSED] = "a quoted value has no closing quote",
    [NYIMBRAK_BRACKET] = "a host in brackets has no `]`, or something but `:` follows it",
    [NYIMBRAK_PARAMETER_NO_EQUALS] = "a parameter of the URI has no `=`",
    [NYIMBRAK_DECODED_NOT_UTF8] = "a part of the URI is not UTF-8 once decoded",
    [NYIMBRAK_TOO_MANY_HOSTS] = "there are more than 16 hosts",
    [NYIMBRAK_TOO_MANY_HOSTADDRS] = "there are more than 16 host addresses",
    [NYIMBRAK_TOO_MANY_PORTS] = "there are more than 16 ports",
    [NYIMBRAK_REPORT_TOO_SHORT] = "the report buffer is too short",
    [NYIMBRAK_RECORD_UNSOUND] = "the record does not lie in its buffer",
};

/* One byte over the limit, so that a text that is too long is seen. */
static uint8_t text[NYIMBRAK_TEXT_MOST + 1], decode[NYIMBRAK_TEXT_MOST], report[NYIMBRAK_REPORT_MOST];

/* The next line without its end, cut where it is over the limit; 0 where the input is at its end. */
static int next_line(size_t *len) {
    int c, some = 0;
    *len = 0;
    while ((c = getchar()) != EOF) {
        some = 1;
        if (c == '\n')
            break;
        if (*len < sizeof text)
            text[(*len)++] = (uint8_t)c;
    }
    return some;
}

static void refuse(unsigned number, size_t len) {
    printf("refused %u: %s", number, reasons[number]);
    if (number == NYIMBRAK_VALUE_NOT_ALLOWED)
        printf(" (key %u)", NYIMBRAK_KEY(nyimbrak_answer(text, len, decode, sizeof decode)));
    printf("\n\n");
}

static void accept(uint32_t report_len, size_t len) {
    uint64_t password = nyimbrak_place(text, len, decode, sizeof decode, NYIMBRAK_PASSWORD);
    fwrite(report, 1, report_len, stdout);
    if (NYIMBRAK_PLACE_SET(password))
        printf("the password has %zu bytes, from byte %zu of the decode buffer on\n",
               NYIMBRAK_PLACE_LENGTH(password), NYIMBRAK_PLACE_START(password));
    printf("\n");
}

int main(void) {
    size_t len;
    while (next_line(&len)) {
        uint32_t answer = nyimbrak_read(text, len, decode, sizeof decode, report, sizeof report);
        if (answer >= NYIMBRAK_REFUSED)
            refuse(answer - NYIMBRAK_REFUSED, len);
        else
            accept(answer, len);
    }
    memset(decode, 0, sizeof decode);
    return 0;
}
