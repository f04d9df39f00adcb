/* The host functions that plhost gives to libraries, declared by hand: no system header serves the lp64 convention. */
#ifndef HOST_H
#define HOST_H

typedef unsigned long size_t;

void *malloc(size_t size);
void *calloc(size_t count, size_t size);
void *realloc(void *block, size_t size);
void free(void *block);
void *memcpy(void *to, const void *from, size_t size);
void *memmove(void *to, const void *from, size_t size);
void *memset(void *to, int byte, size_t size);
int memcmp(const void *one, const void *other, size_t size);
size_t strlen(const char *text);
int strcmp(const char *one, const char *other);
char *strcpy(char *to, const char *from);
int *__errno_location(void);
void abort(void);

#endif
