/* check.h: what the tests in C share: a check that tells where it failed, and a runner of named tests. */
#ifndef CHECK_H
#define CHECK_H

#include <stdio.h>
#include <stdlib.h>
#include <string.h>

#define CHECK(holds)                                                              \
    do {                                                                          \
        if (!(holds)) {                                                           \
            fprintf(stderr, "%s:%d: it doesn't hold that %s\n", __FILE__, __LINE__, #holds); \
            exit(1);                                                              \
        }                                                                         \
    } while (0)

struct test {
    const char *name;
    void (*run)(void);
};

/* Runs the test that is named, or where none is all. The status of the program: 2 where no test has the name. */
static inline int run_tests(const struct test *tests, size_t count, int words, char **word)
{
    int found = 0;
    for (size_t i = 0; i < count; i++) {
        if (words > 1 && strcmp(word[1], tests[i].name) != 0)
            continue;
        found = 1;
        tests[i].run();
        printf("ok %s\n", tests[i].name);
        fflush(stdout);
    }
    return found ? 0 : 2;
}

#endif
