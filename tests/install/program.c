/* Uses what is installed, from C: the version, expressions in both editions and a file. */
#include <korzhinay.h>
#include <stdio.h>
#include <string.h>

static uint8_t evaluate(const char *text, enum korzhinay_dialect edition, uint64_t out[7])
{
    return korzhinay_evaluate((const uint8_t *)text, strlen(text), NULL, 0, (uint8_t)edition, out);
}

int main(void)
{
    static const char file[] = "!ifndef $(NOPE)\na\n!else\nb\n!endif\n";
    uint8_t marks[KORZHINAY_MAX_LINES];
    uint64_t value[7], selected[4];

    printf("version %s: %d %d %d\n", KORZHINAY_VERSION, KORZHINAY_VERSION_MAJOR, KORZHINAY_VERSION_MINOR, KORZHINAY_VERSION_PATCH);
    if (evaluate("1 + 2 * 3", KORZHINAY_EDITION_NEW, value) == 0)
        printf("1 + 2 * 3 = %d\n", (int)value[1]);
    if (evaluate("1 / 0", KORZHINAY_EDITION_NEW, value) == KORZHINAY_REFUSAL_DIVISOR_ZERO)
        printf("1 / 0: %s, at %d\n", korzhinay_meaning(KORZHINAY_REFUSAL_DIVISOR_ZERO), (int)value[6]);
    if (evaluate("'a' == a", KORZHINAY_EDITION_OLD, value) == 0)
        printf("'a' == a = %d\n", (int)value[1]);
    if (evaluate("'a' == a", KORZHINAY_EDITION_NEW, value) == KORZHINAY_REFUSAL_TOKEN_BAD)
        printf("'a' == a: %s, at %d\n", korzhinay_meaning(KORZHINAY_REFUSAL_TOKEN_BAD), (int)value[6]);
    if (korzhinay_select(marks, sizeof marks, (const uint8_t *)file, strlen(file), NULL, 0, KORZHINAY_EDITION_OLD, selected) == 0)
        for (uint64_t line = 0; line < selected[1]; line++)
            printf("%d%c", marks[line], line + 1 < selected[1] ? ' ' : '\n');
    return 0;
}
