/* Compares a candidate's answers with the answer key, which is the output of `states --explain` on standard input; the first argument names the file with the
 * answers. Prints the first difference with the key's reasons and the state before and after, then how many lines of the key are answered rightly:
 *
 *     The first difference is at line 4 of the list
 *         the answer    3 B 3 new 1 0
 *         the key       3 B 3 same 0 0
 *         why           B 3 01: content 1 is in flash already; address 3 becomes dirty
 *         state before  1:1 2:2; blocks 1 2
 *         state after   1:1 2:2 3:1*; blocks 2 1
 *     8 of 9 lines are right
 *
 * An answer is right where it is the line of the key byte for byte, but for spaces and a carriage return at its end. An answer belongs to the line of the key
 * with its call number (the sums to the sums), so a line left out or put in makes no later line wrong; empty lines count as none.
 * Exit status: 0 where every line is right and none is too many, 1 where not, or where reading or writing failed, 2 for wrong usage. */
#include <errno.h>
#include <stdint.h>
#include <stdio.h>
#include <stdlib.h>
#include <string.h>

/* Longer than any line of the key; of a longer answer the beginning is kept, which is wrong in any case. */
#define MOST_TEXT 200000

/* The sums come after every call, and a line without a number where it stands. */
#define SUMS UINT64_MAX

/* The lines below a line of the key, without their four spaces: the reasons, and the state as the last of them. */
static char **reasons;
static size_t reason_count;

/* The state before the line of the key, or NULL before the first call; the next answer, or NULL where none is left. */
static char *state_before, *answer;
static int told;
static unsigned long long right, lines, more;

static void *resized(void *bytes, size_t length)
{
    bytes = realloc(bytes, length);
    if (!bytes) {
        fprintf(stderr, "mark: no memory is left\n");
        exit(1);
    }
    return bytes;
}

/* Reads a line without its end. Gives NULL where none begins. */
static char *next_line(FILE *file)
{
    size_t length = 0, room = 80;
    int byte = getc(file);
    if (byte == EOF)
        return NULL;
    char *text = resized(NULL, room);
    for (; byte != EOF && byte != '\n'; byte = getc(file)) {
        if (length + 1 == room && room < MOST_TEXT)
            text = resized(text, room *= 2);
        if (length + 1 < room)
            text[length++] = byte ? (char)byte : '?';
    }
    text[length] = 0;
    return text;
}

/* The next line of the answers that is not empty, without spaces and carriage returns at its end. */
static void next_answer(FILE *file)
{
    do {
        free(answer);
        answer = next_line(file);
        size_t length = answer ? strlen(answer) : 0;
        while (length > 0 && (answer[length - 1] == ' ' || answer[length - 1] == '\r'))
            answer[--length] = 0;
    } while (answer && !answer[0]);
}

/* The number that a line begins with, the sums' place, or `here` where it has none. */
static uint64_t number_of(const char *text, uint64_t here)
{
    size_t digits = strspn(text, "0123456789");
    if (strncmp(text, "reads ", 6) == 0)
        return SUMS;
    return digits > 0 && digits < 19 && (text[digits] == ' ' || text[digits] == 0) ? strtoull(text, NULL, 10) : here;
}

/* An answer as it is shown: a byte that is no printed character as `?`. */
static void print_shown(const char *text)
{
    for (; *text; text++)
        putchar(*text >= ' ' && *text <= '~' ? *text : '?');
    putchar('\n');
}

/* The first difference: what was answered, or NULL where nothing was, and the line of the key. */
static void tell(const char *answered, const char *key, uint64_t number)
{
    size_t calls = number != SUMS && number != 0;
    told = 1;
    if (number == SUMS)
        printf("The first difference is in the sums\n");
    else
        printf("The first difference is at line %llu of the list\n", (unsigned long long)number + 1);
    printf("    the answer    ");
    print_shown(answered ? answered : "(none)");
    printf("    the key       %s\n", key);
    if (number == SUMS) {
        printf("    why           each call's numbers add up to these; refused calls and looks count nothing\n");
        return;
    }
    for (size_t k = 0; k < reason_count - calls; k++)
        printf("    %s  %s\n", k ? "            " : "why         ", reasons[k]);
    if (calls) {
        printf("    state before  %s\n", state_before ? state_before : "the box is fresh");
        printf("    state after   %s\n", reasons[reason_count - 1]);
    }
}

/* Marks one line of the key; what stands below it is in `reasons`. */
static void mark(FILE *answers, const char *key)
{
    uint64_t number = number_of(key, 0);
    lines++;
    /* Answers of calls that are over: put in, or out of their order. */
    while (answer && number_of(answer, number) < number) {
        if (!told)
            tell(answer, key, number);
        more++;
        next_answer(answers);
    }
    int missing = !answer || number_of(answer, number) > number;
    if (!missing && strcmp(answer, key) == 0)
        right++;
    else if (!told)
        tell(missing ? NULL : answer, key, number);
    if (!missing)
        next_answer(answers);
}

/* The rest of the answers. */
static void mark_rest(FILE *answers)
{
    for (; answer; next_answer(answers)) {
        if (!told) {
            printf("The first difference is after the key's end\n    the answer    ");
            print_shown(answer);
            told = 1;
        }
        more++;
    }
}

/* Keeps a line below the key's, without its four spaces. */
static void keep(const char *text)
{
    reasons = resized(reasons, (reason_count + 1) * sizeof *reasons);
    reasons[reason_count] = resized(NULL, strlen(text) + 1);
    strcpy(reasons[reason_count++], text);
}

/* Lets the lines below go, but for the state, which is the one before the next line. */
static void drop(void)
{
    if (reason_count) {
        free(state_before);
        state_before = reasons[--reason_count];
    }
    while (reason_count)
        free(reasons[--reason_count]);
}

int main(int count, char **words)
{
    if (count != 2) {
        fprintf(stderr, "mark: one argument, the file with the answers, and the output of states --explain on standard input\n");
        return 2;
    }
    FILE *answers = fopen(words[1], "r");
    if (!answers) {
        fprintf(stderr, "mark: the answers cannot be read: %s\n", strerror(errno));
        return 1;
    }
    next_answer(answers);
    for (char *key = next_line(stdin), *text; key; key = text) {
        while ((text = next_line(stdin)) && strncmp(text, "    ", 4) == 0) {
            keep(text + 4);
            free(text);
        }
        mark(answers, key);
        drop();
        free(key);
    }
    mark_rest(answers);
    if (ferror(answers) || ferror(stdin) || lines == 0) {
        fprintf(stderr, "mark: the %s cannot be read\n", ferror(answers) ? "answers" : "key");
        return 1;
    }
    fclose(answers);
    free(state_before);
    free(reasons);
    printf("%llu of %llu lines are right", right, lines);
    if (more)
        printf(", and %llu line%s too many", more, more == 1 ? " is" : "s are");
    printf("\n");
    if (fflush(stdout) != 0 || ferror(stdout)) {
        fprintf(stderr, "mark: the output cannot be written: %s\n", strerror(errno));
        return 1;
    }
    return right != lines || more;
}
