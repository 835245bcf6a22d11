/* Loaded ahead of the C library: the allocation whose number the environment names as FAIL_ALLOC, counted from 1, finds no
   memory. At the end the file that FAIL_ALLOC_COUNT names has the number of allocations that were requested. */
#define _GNU_SOURCE
#include <dlfcn.h>
#include <errno.h>
#include <fcntl.h>
#include <stdlib.h>
#include <unistd.h>

static void *(*next_malloc)(size_t);
static void *(*next_realloc)(void *, size_t);
static unsigned long count, fails;

__attribute__((constructor)) static void begin(void)
{
	const char *number = getenv("FAIL_ALLOC");
	next_malloc = (void *(*)(size_t))dlsym(RTLD_NEXT, "malloc");
	next_realloc = (void *(*)(void *, size_t))dlsym(RTLD_NEXT, "realloc");
	count = 0;
	fails = number ? strtoul(number, NULL, 10) : 0;
}

static int refuses(void)
{
	count += 1;
	return count == fails;
}

void *malloc(size_t size)
{
	if (!next_malloc)
		next_malloc = (void *(*)(size_t))dlsym(RTLD_NEXT, "malloc");
	if (refuses()) {
		errno = ENOMEM;
		return NULL;
	}
	return next_malloc(size);
}

void *realloc(void *old, size_t size)
{
	if (!next_realloc)
		next_realloc = (void *(*)(void *, size_t))dlsym(RTLD_NEXT, "realloc");
	if (refuses()) {
		errno = ENOMEM;
		return NULL;
	}
	return next_realloc(old, size);
}

void *calloc(size_t many, size_t size)
{
	unsigned char *room;
	if (size && many > (size_t)-1 / size)
		return NULL;
	room = malloc(many * size);
	for (size_t at = 0; room && at < many * size; at += 1)
		room[at] = 0;
	return room;
}

int posix_memalign(void **place, size_t align, size_t size)
{
	static int (*next)(void **, size_t, size_t);
	if (!next)
		next = (int (*)(void **, size_t, size_t))dlsym(RTLD_NEXT, "posix_memalign");
	return refuses() ? ENOMEM : next(place, align, size);
}

void *aligned_alloc(size_t align, size_t size)
{
	void *room = NULL;
	return posix_memalign(&room, align, size) ? NULL : room;
}

/* Nothing here asks for memory. */
__attribute__((destructor)) static void end(void)
{
	const char *name = getenv("FAIL_ALLOC_COUNT");
	char digits[24];
	size_t at = sizeof digits;
	unsigned long left = count;
	int file = name ? open(name, O_WRONLY | O_CREAT | O_TRUNC, 0600) : -1;
	if (file < 0)
		return;
	do {
		digits[--at] = (char)('0' + left % 10);
		left /= 10;
	} while (left);
	if (write(file, digits + at, sizeof digits - at) < 0)
		_exit(127);
	close(file);
}
