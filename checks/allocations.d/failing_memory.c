/* Laid before a program by LD_PRELOAD: the request for memory whose number FAILING_REQUEST names is refused, and a file is left at
 * FAILING_MARK if there was such a request. When the program ends, FAILING_COUNTS gets the number of requests, their octets, and
 * how many pieces of memory were not freed. The program asks by malloc and realloc alone; the C library's threads use calloc. It ends
 * by _exit, which runs no destructor. */
#define _GNU_SOURCE
#include <dlfcn.h>
#include <errno.h>
#include <fcntl.h>
#include <stdatomic.h>
#include <stdio.h>
#include <stdlib.h>
#include <sys/syscall.h>
#include <unistd.h>

static atomic_long requests, octets, kept;
static long failing;
static const char *mark, *counts;

__attribute__((constructor)) static void begin(void)
{
	const char *number = getenv("FAILING_REQUEST");

	mark = getenv("FAILING_MARK");
	counts = getenv("FAILING_COUNTS");
	failing = number ? atol(number) : 0;
	atomic_store(&requests, 0);
	atomic_store(&octets, 0);
	atomic_store(&kept, 0);
}

/* Writes the counts, without a stream, which would request memory. Returns whether they were written. */
static int tell(void)
{
	char line[80];
	int length, file, told;

	if (!counts)
		return 1;
	length = snprintf(line, sizeof line, "%ld %ld %ld\n", atomic_load(&requests), atomic_load(&octets), atomic_load(&kept));
	file = open(counts, O_CREAT | O_TRUNC | O_WRONLY, 0600);
	told = file >= 0 && write(file, line, (size_t)length) == length;
	close(file);
	return told;
}

void _exit(int status)
{
	int told = tell();

	for (;;)
		syscall(SYS_exit_group, told ? status : 99);
}

static int is_refused(size_t size)
{
	long number = atomic_fetch_add(&requests, 1) + 1;

	atomic_fetch_add(&octets, (long)size);
	if (!failing || number != failing)
		return 0;
	if (mark)
		close(open(mark, O_CREAT | O_WRONLY, 0600));
	errno = ENOMEM;
	return 1;
}

static void *counted(void *made)
{
	if (made)
		atomic_fetch_add(&kept, 1);
	return made;
}

void *malloc(size_t size)
{
	static void *(*real)(size_t);

	if (!real)
		real = dlsym(RTLD_NEXT, "malloc");
	return is_refused(size) ? NULL : counted(real(size));
}

void *realloc(void *old, size_t size)
{
	static void *(*real)(void *, size_t);
	void *made;

	if (!real)
		real = dlsym(RTLD_NEXT, "realloc");
	if (is_refused(size))
		return NULL;
	made = real(old, size);
	return old ? made : counted(made);
}

void free(void *old)
{
	static void (*real)(void *);

	if (!real)
		real = dlsym(RTLD_NEXT, "free");
	if (old)
		atomic_fetch_sub(&kept, 1);
	real(old);
}
