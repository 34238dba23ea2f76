/* Steps lines of standard input by the library, and writes each reply: steps VOLUME FLAGS [OUTCOME AT], or steps VOLUME FLAGS memory AT.
 *
 * The line `sync` calls exsm_sync, and is replied `synced`. OUTCOME is what becomes of the call on the file of the number AT, counted from 1 on behind the
 * opening: `fails`, `kills` or `tears`. With `memory` the allocation of that number is refused. A fault is told as `fault CODE OS_ERROR`, after which the steps
 * end. The status is 0 where the volume was opened and closed; the last line is then `calls COUNT memory COUNT`, of what was counted. */
#define _GNU_SOURCE
#include "calls.h"
#include "check.h"
#include "exsm.h"

#include <errno.h>
#include <unistd.h>

static void say(const char *text, size_t len)
{
    CHECK(write(1, text, len) == (ssize_t)len && write(1, "\n", 1) == 1);
}

/* Steps a line. Whether the handle goes on. */
static int step(exsm *db, const char *line, size_t len)
{
    const char *reply = "synced";
    size_t reply_len = 6;
    int is_sync = len == 4 && memcmp(line, "sync", 4) == 0;
    int code = is_sync ? exsm_sync(db) : exsm_line(db, line, len, &reply, &reply_len);
    if (code == EXSM_MISUSE || code >= EXSM_NOMEM) {
        char text[64];
        exsm_why why;
        exsm_last(db, &why);
        CHECK(why.code == code);
        say(text, (size_t)sprintf(text, "fault %d %d", code, why.os_error));
        return 0;
    }
    CHECK(is_sync || reply_len == strlen(reply));
    CHECK(is_sync || (code == EXSM_OK) == (reply_len == 0 || strncmp(reply, "ok ", 3) == 0));
    CHECK(code == EXSM_OK || code == atoi(reply + 3));
    if (reply_len > 0)
        say(reply, reply_len);
    return 1;
}

/* What becomes of a call, by the word for it. */
static enum outcome outcome_of(const char *word)
{
    return strcmp(word, "fails") == 0 ? FAILS : strcmp(word, "kills") == 0 ? KILLS : strcmp(word, "tears") == 0 ? TEARS : AS_IT_IS;
}

int main(int words, char **word)
{
    CHECK(words == 3 || words == 5);
    exsm *db;
    exsm_why why;
    char *line = NULL, text[64];
    size_t room = 0;
    ssize_t len;
    if (exsm_open(word[1], (unsigned)atoi(word[2]), &db, &why) != EXSM_OK) {
        say(text, (size_t)sprintf(text, "fault %d %d", why.code, why.os_error));
        return 1;
    }
    calls_anew();
    if (words == 5 && strcmp(word[3], "memory") == 0) {
        calls.memory_at = (size_t)atol(word[4]);
    } else if (words == 5) {
        calls.at = (size_t)atol(word[4]);
        calls.outcome = outcome_of(word[3]);
        calls.reason = ENOSPC;
    }
    int goes_on = 1;
    while (goes_on && (len = getline(&line, &room, stdin)) > 0)
        goes_on = step(db, line, (size_t)(line[len - 1] == '\n' ? len - 1 : len));
    free(line);
    int code = exsm_close(db);
    if (code != EXSM_OK)
        say(text, (size_t)sprintf(text, "fault %d 0", code));
    say(text, (size_t)sprintf(text, "calls %zu memory %zu", calls.count, calls.memory_count));
    return 0;
}
