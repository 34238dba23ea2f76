/* Steps a script on a store by the chunk layer.
 *
 *   peer FOLDER fill SCRIPT     steps it
 *   peer FOLDER time SCRIPT     steps it, and tells the seconds of the processor (user and system) and of the clock
 *   peer FOLDER tell SCRIPT     steps it, and writes the bytes that were read, numbers that were listed, and then all objects
 *   peer FOLDER open            opens the store, ready for an edit, and tells nothing
 *   peer name                   tells the store's name and version
 *
 * Lines: begin, commit, create N, append N DATA, insert N POS DATA, delete N POS LEN, destroy N, read N POS LEN, list. DATA is
 * hex:DIGITS or rep:COUNT:BYTE. A script is read whole before it is stepped, so that no reading is timed. */
#include <stdio.h>
#include <stdlib.h>
#include <string.h>
#include <sys/resource.h>
#include <time.h>

#include "chunks.h"
#include "store.h"

enum act { BEGIN, COMMIT, CREATE, APPEND, INSERT, DELETE, DESTROY, READ, LIST, ACTS };
static const char *const words[ACTS] = {"begin", "commit", "create", "append", "insert", "delete", "destroy", "read", "list"};

struct step {
    enum act act;
    uint64_t object, position, length;
    unsigned char *data;
};

struct script {
    struct step *steps;
    size_t count;
    size_t most; /* bytes of the longest read */
};

void fail(const char *what, const char *why) {
    fprintf(stderr, "peer: %s: %s\n", what, why);
    exit(1);
}

static unsigned digit(int letter) {
    return letter <= '9' ? (unsigned)(letter - '0') : (unsigned)((letter | 32) - 'a') + 10;
}

static void read_data(struct step *step, const char *word) {
    if (strncmp(word, "rep:", 4) == 0) {
        char *end;
        step->length = strtoull(word + 4, &end, 10);
        step->data = malloc(step->length + 1);
        memset(step->data, (int)strtoul(end + 1, NULL, 16), step->length);
        return;
    }
    if (strncmp(word, "hex:", 4) != 0) fail("no data", word);
    word += 4;
    step->length = strlen(word) / 2;
    step->data = malloc(step->length + 1);
    for (size_t at = 0; at < step->length; at++)
        step->data[at] = (unsigned char)(digit(word[2 * at]) << 4 | digit(word[2 * at + 1]));
}

static struct step read_step(char *line) {
    struct step step = {ACTS, 0, 0, 0, NULL};
    char *rest, *word = strtok_r(line, " \n", &rest);
    for (int act = 0; act < ACTS; act++)
        if (strcmp(word, words[act]) == 0) step.act = (enum act)act;
    if (step.act == ACTS) fail("no line begins so", word);
    if (step.act >= CREATE && step.act <= READ) step.object = strtoull(strtok_r(NULL, " \n", &rest), NULL, 10);
    if (step.act == INSERT || step.act == DELETE || step.act == READ)
        step.position = strtoull(strtok_r(NULL, " \n", &rest), NULL, 10);
    if (step.act == APPEND || step.act == INSERT) read_data(&step, strtok_r(NULL, " \n", &rest));
    if (step.act == DELETE || step.act == READ) step.length = strtoull(strtok_r(NULL, " \n", &rest), NULL, 10);
    return step;
}

void run(const struct script *script, FILE *told);

static struct script read_script(const char *path) {
    FILE *file = fopen(path, "r");
    if (file == NULL) fail(path, "it can't be read");
    struct script script = {NULL, 0, 1};
    size_t room = 0, line_room = 0;
    char *line = NULL;
    while (getline(&line, &line_room, file) > 0) {
        if (script.count == room) {
            room = room * 2 + 1024;
            script.steps = realloc(script.steps, room * sizeof *script.steps);
        }
        struct step step = read_step(line);
        if (step.act == READ && step.length > script.most) script.most = step.length;
        script.steps[script.count++] = step;
    }
    free(line);
    fclose(file);
    return script;
}

static void write_number(uint64_t number, void *with) {
    if (with != NULL) fprintf(with, "%llu\n", (unsigned long long)number);
}

/* Steps a script; what is read and listed goes to `told`, where it is one. (a function by itself, whose instructions are counted) */
__attribute__((noinline)) void run(const struct script *script, FILE *told) {
    unsigned char *out = malloc(script->most);
    for (size_t at = 0; at < script->count; at++) {
        const struct step *step = &script->steps[at];
        size_t length;
        switch (step->act) {
        case BEGIN: objects_begin(); break;
        case COMMIT: objects_commit(); break;
        case CREATE: object_create(step->object); break;
        case APPEND: object_append(step->object, step->data, step->length); break;
        case INSERT: object_insert(step->object, step->position, step->data, step->length); break;
        case DELETE: object_delete(step->object, step->position, step->length); break;
        case DESTROY: object_destroy(step->object); break;
        case READ:
            length = object_read(step->object, step->position, step->length, out);
            if (length != step->length) fail("read", "there aren't so many bytes");
            if (told != NULL) fwrite(out, 1, length, told);
            break;
        default: objects_list(write_number, told);
        }
    }
    free(out);
}

struct numbers {
    uint64_t *all;
    size_t count, room;
};

static void note_number(uint64_t number, void *with) {
    struct numbers *it = with;
    if (it->count == it->room) {
        it->room = it->room * 2 + 1024;
        it->all = realloc(it->all, it->room * sizeof *it->all);
    }
    it->all[it->count++] = number;
}

static void tell_all(void) {
    struct numbers numbers = {NULL, 0, 0};
    objects_list(note_number, &numbers);
    for (size_t at = 0; at < numbers.count; at++) {
        uint64_t size = object_size(numbers.all[at]);
        unsigned char *whole = malloc(size + 1);
        if (object_read(numbers.all[at], 0, size, whole) != size) fail("read", "there aren't so many bytes");
        fwrite(whole, 1, size, stdout);
        free(whole);
    }
}

static double processor(void) {
    struct rusage used;
    getrusage(RUSAGE_SELF, &used);
    return (double)(used.ru_utime.tv_sec + used.ru_stime.tv_sec)
        + (double)(used.ru_utime.tv_usec + used.ru_stime.tv_usec) / 1e6;
}

static double clock_now(void) {
    struct timespec now;
    clock_gettime(CLOCK_MONOTONIC, &now);
    return (double)now.tv_sec + (double)now.tv_nsec / 1e9;
}

int main(int count, char **words_given) {
    if (count == 2 && strcmp(words_given[1], "name") == 0) {
        puts(store_name);
        return 0;
    }
    if (count < 3) fail("peer", "FOLDER fill|time|tell SCRIPT, FOLDER open, or name");
    const char *what = words_given[2];
    struct script script = {NULL, 0, 1};
    if (count == 4) script = read_script(words_given[3]);
    objects_open(words_given[1]);
    double used = processor(), begun = clock_now();
    run(&script, strcmp(what, "tell") == 0 ? stdout : NULL);
    used = processor() - used;
    begun = clock_now() - begun;
    if (strcmp(what, "time") == 0) printf("%.9f %.9f\n", used, begun);
    if (strcmp(what, "tell") == 0) tell_all();
    objects_close();
    return 0;
}
