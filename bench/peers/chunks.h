/* Objects of bytes over the rows of a store, the same for each store. */
#ifndef CHUNKS_H
#define CHUNKS_H

#include <stddef.h>
#include <stdint.h>

void objects_open(const char *folder);
void objects_close(void);
void objects_begin(void);
void objects_commit(void);
void object_create(uint64_t number);
void object_append(uint64_t number, const unsigned char *data, size_t length);
void object_insert(uint64_t number, uint64_t position, const unsigned char *data, size_t length);
void object_delete(uint64_t number, uint64_t position, uint64_t length);
void object_destroy(uint64_t number);
/* Gives how many bytes there were, at most so many. */
size_t object_read(uint64_t number, uint64_t position, size_t length, unsigned char *out);
uint64_t object_size(uint64_t number);
/* Calls for the number of each object, in order. */
void objects_list(void (*seen)(uint64_t number, void *with), void *with);

#endif
