/* Does what `10 INPUT A;GOTO 10` does, as a C program would: bench/input.sh times ptb beside it.
 *
 * It shows a prompt, reads a line by getline, shows it, and works out the expression at its beginning: numbers, the variable A, the
 * four operators, comparisons and parentheses, with the ranges of the language. A faulty line gets its word, and is asked for again. */
#define _GNU_SOURCE
#include <stdio.h>
#include <stdlib.h>

static const char *at;
static const char *word; /* what is wrong with the line, if anything is */
static long a;

static long comparison(void);

static void blanks(void) {
    while (*at == ' ')
        at++;
}

static int takes(char byte) {
    blanks();
    if (*at != byte)
        return 0;
    at++;
    return 1;
}

static long fault(const char *text) {
    if (word == NULL)
        word = text;
    return 0;
}

static long in_range(long value) { return value < -32768 || value > 32767 ? fault("HOW?") : value; }

static long number(void) {
    long value = 0;
    for (; *at >= '0' && *at <= '9'; at++)
        value = value > 32767 ? value : value * 10 + (*at - '0');
    return value > 32767 ? fault("HOW?") : value;
}

static long factor(void) {
    long value;
    blanks();
    if (*at >= '0' && *at <= '9')
        return number();
    if (takes('A'))
        return a;
    if (!takes('('))
        return fault("WHAT?");
    value = comparison();
    return takes(')') || word != NULL ? value : fault("WHAT?");
}

static long product(void) {
    long value = factor();
    while (word == NULL) {
        if (takes('*')) {
            value = in_range(value * factor());
        } else if (takes('/')) {
            long divisor = factor();
            if (word == NULL && divisor == 0)
                return fault("HOW?");
            if (word == NULL)
                value = in_range(value / divisor);
        } else {
            break;
        }
    }
    return value;
}

static long sum(void) {
    int minus = takes('-');
    long value;
    if (!minus)
        takes('+');
    value = product();
    if (minus)
        value = in_range(-value);
    while (word == NULL) {
        if (takes('+'))
            value = in_range(value + product());
        else if (takes('-'))
            value = in_range(value - product());
        else
            break;
    }
    return value;
}

static long comparison(void) {
    long value = sum();
    if (word != NULL)
        return 0;
    if (takes('>'))
        return takes('=') ? value >= sum() : value > sum();
    if (takes('<'))
        return takes('=') ? value <= sum() : value < sum();
    if (takes('='))
        return value == sum();
    if (takes('#'))
        return value != sum();
    return value;
}

int main(void) {
    char *line = NULL;
    size_t room = 0;
    for (;;) {
        long value;
        ssize_t count;
        fputs("A:", stdout);
        count = getline(&line, &room, stdin);
        if (count < 0)
            break;
        if (count > 0 && line[count - 1] == '\n')
            line[--count] = 0;
        fwrite(line, 1, count, stdout);
        putchar('\n');
        at = line;
        word = NULL;
        value = comparison();
        if (word == NULL)
            a = value;
        else
            printf("%s\n", word);
    }
    free(line);
    return 0;
}
