/* Loaded before the C library by LD_PRELOAD: refuses one allocation, whose number from 1 is in REFUSED, and reports it with
   a byte on file descriptor 9. netrev allocates only with malloc and realloc. If THREADS is 0, starting a thread fails and
   is reported in the same way.

   If BEHIND is 1, all later allocations are refused too. If MARKED is 1, only allocations between the lines "refuse" and
   "grant" on standard output count, each of which the program has to write in one piece. Then the line "refuse the next"
   makes the next allocation fail, which is neither counted nor reported. */
#define _GNU_SOURCE
#include <dlfcn.h>
#include <errno.h>
#include <pthread.h>
#include <stdlib.h>
#include <string.h>
#include <unistd.h>

/* the number of allocations up to the refused one, including it; 0 if none is refused */
static long left = -1;

/* whether allocations are counted now, and whether the next one is refused in any case */
static long counts = -1, refuses_next = 0;

static long number(const char *name)
{
	const char *text = getenv(name);
	return text ? atol(text) : 0;
}

static void begin(void)
{
	if (left < 0) {
		left = number("REFUSED");
		counts = !number("MARKED");
	}
}

/* Whether the allocation is the one to refuse, or a later one that is refused too. */
static int is_counted_out(void)
{
	long at;
	if (left == 0 || !__atomic_load_n(&counts, __ATOMIC_SEQ_CST))
		return 0;
	at = __atomic_fetch_sub(&left, 1, __ATOMIC_SEQ_CST);
	if (at > 1)
		return 0;
	if (!number("BEHIND")) {
		__atomic_store_n(&left, 0, __ATOMIC_SEQ_CST);
		return at == 1;
	}
	__atomic_store_n(&left, 1, __ATOMIC_SEQ_CST);
	return 1;
}

static int is_refused(void)
{
	begin();
	if (__atomic_exchange_n(&refuses_next, 0, __ATOMIC_SEQ_CST)) {
		errno = ENOMEM;
		return 1;
	}
	if (!is_counted_out())
		return 0;
	if (write(9, "!", 1) != 1)
		_exit(99);
	errno = ENOMEM;
	return 1;
}

void *malloc(size_t size)
{
	static void *(*next)(size_t);
	if (!next)
		next = (void *(*)(size_t))dlsym(RTLD_NEXT, "malloc");
	return is_refused() ? NULL : next(size);
}

void *realloc(void *block, size_t size)
{
	static void *(*next)(void *, size_t);
	if (!next)
		next = (void *(*)(void *, size_t))dlsym(RTLD_NEXT, "realloc");
	return is_refused() ? NULL : next(block, size);
}

static int is_line(const char *line, const void *bytes, size_t count)
{
	return count == strlen(line) && memcmp(line, bytes, count) == 0;
}

ssize_t write(int file, const void *bytes, size_t count)
{
	static ssize_t (*next)(int, const void *, size_t);
	if (!next)
		next = (ssize_t (*)(int, const void *, size_t))dlsym(RTLD_NEXT, "write");
	if (file == 1 && number("MARKED")) {
		if (is_line("refuse\n", bytes, count))
			__atomic_store_n(&counts, 1, __ATOMIC_SEQ_CST);
		if (is_line("grant\n", bytes, count))
			__atomic_store_n(&counts, 0, __ATOMIC_SEQ_CST);
		if (is_line("refuse the next\n", bytes, count))
			__atomic_store_n(&refuses_next, 1, __ATOMIC_SEQ_CST);
	}
	return next(file, bytes, count);
}

int pthread_create(pthread_t *thread, const pthread_attr_t *attributes, void *(*start)(void *), void *argument)
{
	static int (*next)(pthread_t *, const pthread_attr_t *, void *(*)(void *), void *);
	const char *threads = getenv("THREADS");
	if (threads && atol(threads) == 0) {
		if (write(9, "!", 1) != 1)
			_exit(99);
		return EAGAIN;
	}
	if (!next)
		next = (int (*)(pthread_t *, const pthread_attr_t *, void *(*)(void *), void *))dlsym(RTLD_NEXT, "pthread_create");
	return next(thread, attributes, start, argument);
}
