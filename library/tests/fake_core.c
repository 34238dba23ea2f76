#include "fake_core.h"

#include "heap.h"

#include <stdio.h>
#include <stdlib.h>
#include <string.h>

struct call {
    exsm_asked what;
    uint8_t *bytes;
};

struct fake {
    struct call *calls;
    size_t count, room;
    char *told;
    size_t told_len;
};

static struct fake *fake_of(exsm_core *core)
{
    return core->at;
}

static uint8_t *copy_of(const void *bytes, size_t len)
{
    struct tried got = rattle_alloc(len, 1);
    if (got.ok)
        memcpy(got.block, bytes, len);
    return got.ok ? got.block : NULL;
}

/* No reply is kept. */
static void forget(struct fake *fake)
{
    if (fake->told != NULL)
        rattle_dealloc(fake->told);
    fake->told = NULL;
    fake->told_len = 0;
}

/* Lists a call. Whether there was memory. */
static bool list(struct fake *fake, exsm_asked what, const uint8_t *bytes)
{
    if (fake->count == fake->room) {
        struct tried more = rattle_realloc(fake->calls, fake->count * sizeof *fake->calls, (fake->room + 8) * sizeof *fake->calls, 8);
        if (!more.ok)
            return false;
        fake->calls = more.block;
        fake->room += 8;
    }
    uint8_t *copy = NULL;
    if (what.len > 0 && (copy = copy_of(bytes, what.len)) == NULL)
        return false;
    fake->calls[fake->count++] = (struct call){what, copy};
    return true;
}

static bool list_write(struct fake *fake, uint8_t *image, uint64_t at, uint64_t len, int byte)
{
    memset(image + at, byte, len);
    return list(fake, (exsm_asked){1, at, len}, image + at);
}

/* Keeps a reply, with a line feed. Whether there was memory. */
static bool tell(struct fake *fake, const char *text, size_t len)
{
    forget(fake);
    struct tried got = rattle_alloc(len + 1, 1);
    if (!got.ok)
        return false;
    fake->told = memcpy(got.block, text, len);
    fake->told[len] = '\n';
    fake->told_len = len + 1;
    return true;
}

static bool tell_bytes(struct fake *fake, const uint8_t *bytes, size_t len)
{
    char text[256] = "ok ";
    for (size_t i = 0; i < len && i < 100; i++)
        sprintf(text + 3 + 2 * i, "%02x", bytes[i]);
    return tell(fake, text, strlen(text));
}

static bool tell_long(struct fake *fake, size_t len)
{
    char *text = malloc(len + 3);
    if (text == NULL)
        return false;
    memset(text, 'x', len + 3);
    memcpy(text, "ok ", 3);
    bool is_told = tell(fake, text, len + 3);
    free(text);
    return is_told;
}

static bool tell_listed(struct fake *fake)
{
    char text[32];
    return tell(fake, text, (size_t)sprintf(text, "ok %zu", fake->count));
}

static uint32_t refuse(struct fake *fake, uint32_t number)
{
    char text[32];
    return tell(fake, text, (size_t)sprintf(text, "no %u", number)) ? number : EXSM_NOMEM;
}

uint32_t exsm_core_open(exsm_core *core, uint8_t *image, size_t image_len, uint8_t *part)
{
    if (image_len <= FAKE_MAGIC_LEN || memcmp(image, FAKE_MAGIC, FAKE_MAGIC_LEN) != 0) {
        *part = FAKE_PART;
        return EXSM_BAD_VOLUME;
    }
    struct tried got = rattle_alloc(sizeof(struct fake), 8);
    if (!got.ok)
        return EXSM_NOMEM;
    struct fake *fake = memset(got.block, 0, sizeof(struct fake));
    core->at = fake;
    exsm_asked sync = {0};
    if (image[FAKE_MAGIC_LEN] == FAKE_LOG
        && !(list_write(fake, image, 64, 64, 'h') && list(fake, sync, NULL) && list_write(fake, image, FAKE_MAGIC_LEN, 1, FAKE_NO_LOG)
             && list(fake, sync, NULL))) {
        exsm_core_close(core);
        return EXSM_NOMEM;
    }
    return EXSM_OK;
}

/* Does a word of a line. A result. */
static uint32_t do_word(struct fake *fake, uint8_t *image, size_t image_len, const char *word)
{
    unsigned long at = 0, len = 0;
    unsigned byte = 0;
    bool is_done = true;
    if (sscanf(word, " w %lu %lu %x", &at, &len, &byte) == 3 && at + len <= image_len)
        is_done = list_write(fake, image, at, len, (int)byte);
    else if (strcmp(word, "s") == 0)
        is_done = list(fake, (exsm_asked){0}, NULL);
    else if (sscanf(word, " r %lu %lu", &at, &len) == 2 && at + len <= image_len)
        is_done = tell_bytes(fake, image + at, len);
    else if (sscanf(word, " t %lu", &len) == 1)
        is_done = tell_long(fake, len);
    else if (strcmp(word, "z") == 0)
        is_done = tell(fake, "ok\0z", 4);
    else if (strcmp(word, "l") == 0)
        is_done = tell_listed(fake);
    else if (sscanf(word, " n %lu", &len) == 1)
        return refuse(fake, (uint32_t)len);
    else if (sscanf(word, " f %lu", &len) == 1)
        return (uint32_t)len;
    else
        return refuse(fake, EXSM_SYNTAX);
    return is_done ? EXSM_OK : EXSM_NOMEM;
}

uint32_t exsm_core_line(exsm_core *core, uint8_t *image, size_t image_len, const uint8_t *line, size_t len)
{
    struct fake *fake = fake_of(core);
    forget(fake);
    if (len > 0 && !tell(fake, "ok", 2))
        return EXSM_NOMEM;
    char *words = malloc(len + 1);
    if (words == NULL)
        return EXSM_NOMEM;
    if (len > 0)
        memcpy(words, line, len);
    words[len] = '\0';
    uint32_t code = EXSM_OK;
    char *rest;
    for (char *word = strtok_r(words, ";", &rest); word != NULL && code == EXSM_OK; word = strtok_r(NULL, ";", &rest))
        code = do_word(fake, image, image_len, word);
    free(words);
    return code;
}

void exsm_core_why(exsm_core *core, exsm_reason *out)
{
    (void)core;
    *out = (exsm_reason){.need = FAKE_NEED};
}

size_t exsm_core_text_len(exsm_core *core)
{
    return fake_of(core)->told_len;
}

uint32_t exsm_core_text(exsm_core *core, uint8_t *out, size_t room)
{
    struct fake *fake = fake_of(core);
    if (fake->told_len > room)
        return EXSM_ROOM;
    if (fake->told_len > 0)
        memcpy(out, fake->told, fake->told_len);
    return EXSM_OK;
}

size_t exsm_core_asked(exsm_core *core)
{
    return fake_of(core)->count;
}

uint32_t exsm_core_call(exsm_core *core, size_t number, exsm_asked *what, uint8_t *out, size_t room)
{
    struct fake *fake = fake_of(core);
    if (number >= fake->count)
        return EXSM_MISUSE;
    *what = fake->calls[number].what;
    if (what->len > 0 && room >= what->len)
        memcpy(out, fake->calls[number].bytes, what->len);
    return EXSM_OK;
}

void exsm_core_made(exsm_core *core)
{
    struct fake *fake = fake_of(core);
    for (size_t i = 0; i < fake->count; i++)
        if (fake->calls[i].bytes != NULL)
            rattle_dealloc(fake->calls[i].bytes);
    fake->count = 0;
}

void exsm_core_close(exsm_core *core)
{
    struct fake *fake = fake_of(core);
    exsm_core_made(core);
    if (fake->calls != NULL)
        rattle_dealloc(fake->calls);
    forget(fake);
    rattle_dealloc(fake);
    core->at = NULL;
}
