/* Marks the questions about a sheet, as the program `mark` does, by way of the library.
 *
 * usage: example FILE, where FILE holds a sheet, a 16-bit count and that many questions, each a 32-bit state and a
 * 16-bit action. A refusal is explained on standard error. */
#include "lekruvas.h"

#include <stdio.h>
#include <stdlib.h>

static uint32_t number(const uint8_t *bytes, size_t count) {
    uint32_t value = 0;
    for (size_t i = 0; i < count; i++)
        value = value << 8 | bytes[i];
    return value;
}

static void explain(uint8_t refusal, uint64_t place) {
    uint8_t text[128];
    size_t length = lekruvas_text(refusal, text, sizeof text);
    fprintf(stderr, "refused %u at %llu: %.*s\n", refusal, (unsigned long long)place, (int)length, (const char *)text);
}

static void print_answer(uint32_t state, uint32_t action, uint8_t answer, uint64_t place) {
    switch (answer) {
    case LEKRUVAS_BEST:
        printf("%u %u best\n", state, action);
        break;
    case LEKRUVAS_OTHER:
        printf("%u %u other\n", state, action);
        break;
    case LEKRUVAS_STUCK:
        printf("%u %u stuck\n", state, action);
        break;
    default:
        printf("%u %u refused %u\n", state, action, answer);
        explain(answer, place);
    }
}

static int mark_all(const uint8_t *input, size_t length) {
    if (length < 5)
        return printf("refused 1\n"), 0;
    size_t end = number(input + 1, 4);
    if (length < end + 2 || length != end + 2 + 6 * (size_t)number(input + end, 2))
        return printf("refused 1\n"), 0;
    uint64_t place;
    uint8_t refusal = lekruvas_check(input, end, &place);
    if (refusal != 0) {
        printf("refused %u\n", refusal);
        explain(refusal, place);
        return 0;
    }
    for (const uint8_t *at = input + end + 2; at < input + length; at += 6) {
        uint32_t state = number(at, 4);
        uint16_t action = (uint16_t)number(at + 4, 2);
        uint8_t answer = lekruvas_mark(input, end, state, action, &place);
        print_answer(state, action, answer, place);
    }
    return 0;
}

int main(int count, char **words) {
    static uint8_t input[65536];
    FILE *file = count == 2 ? fopen(words[1], "rb") : NULL;
    if (file == NULL) {
        fprintf(stderr, "usage: example FILE\n");
        return 2;
    }
    size_t length = fread(input, 1, sizeof input, file);
    fclose(file);
    return mark_all(input, length);
}
