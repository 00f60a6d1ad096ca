/* Matches a text by a pattern so many times with PCRE2, without its just-in-time compiler. The words are
   how many times, the pattern and the text; it prints how many of the matches are one. */
#define PCRE2_CODE_UNIT_WIDTH 8
#include <pcre2.h>
#include <stdio.h>
#include <stdlib.h>
#include <string.h>

static long matches(const pcre2_code *code, pcre2_match_data *data, const char *text, long times) {
    size_t length = strlen(text);
    long found = 0;
    while (times-- > 0) {
        if (pcre2_match(code, (PCRE2_SPTR)text, length, 0, 0, data, NULL) > 0) {
            found++;
        }
    }
    return found;
}

int main(int count, char **words) {
    if (count != 4) {
        return 2;
    }
    int error;
    PCRE2_SIZE at;
    uint32_t options = PCRE2_DOTALL | PCRE2_DOLLAR_ENDONLY;
    pcre2_code *code = pcre2_compile((PCRE2_SPTR)words[2], PCRE2_ZERO_TERMINATED, options, &error, &at, NULL);
    pcre2_match_data *data = code ? pcre2_match_data_create_from_pattern(code, NULL) : NULL;
    if (data == NULL) {
        return 1;
    }
    printf("%ld\n", matches(code, data, words[3], strtol(words[1], NULL, 10)));
    return 0;
}
