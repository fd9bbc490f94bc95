/* What a program of this folder expects: EXPECT(fact) counts a fact that holds; of one that fails it prints the line and the fact, and ends the program. */
#include <stdio.h>
#include <stdlib.h>

static unsigned checks;

static void expect_at(const char *file, int line, const char *what, int holds)
{
    checks++;
    if (!holds) {
        printf("%s: line %d fails: %s\n", file, line, what);
        exit(1);
    }
}
#define EXPECT(fact) expect_at(__FILE__, __LINE__, #fact, (fact))
