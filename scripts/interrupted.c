/* Interrupts the program's reads and writes as signals would: before each one succeeds, INTERRUPTED of them fail with EINTR.
   Each failure leaves a byte on file descriptor 9, which shows that there were some. */
#define _GNU_SOURCE
#include <dlfcn.h>
#include <errno.h>
#include <stdlib.h>
#include <sys/uio.h>
#include <unistd.h>

static __thread long left = -1;

static int interrupted(int descriptor)
{
	static ssize_t (*real)(int, const void *, size_t);
	const char *many = getenv("INTERRUPTED");

	if (descriptor > 1 || many == NULL)
		return 0;
	if (left < 0)
		left = atol(many);
	if (left-- == 0)
		return 0;
	if (real == NULL)
		real = dlsym(RTLD_NEXT, "write");
	real(9, "i", 1);
	errno = EINTR;
	return 1;
}

ssize_t read(int descriptor, void *to, size_t size)
{
	static ssize_t (*real)(int, void *, size_t);

	if (interrupted(descriptor))
		return -1;
	if (real == NULL)
		real = dlsym(RTLD_NEXT, "read");
	return real(descriptor, to, size);
}

ssize_t write(int descriptor, const void *from, size_t size)
{
	static ssize_t (*real)(int, const void *, size_t);

	if (interrupted(descriptor))
		return -1;
	if (real == NULL)
		real = dlsym(RTLD_NEXT, "write");
	return real(descriptor, from, size);
}

ssize_t writev(int descriptor, const struct iovec *parts, int count)
{
	static ssize_t (*real)(int, const struct iovec *, int);

	if (interrupted(descriptor))
		return -1;
	if (real == NULL)
		real = dlsym(RTLD_NEXT, "writev");
	return real(descriptor, parts, count);
}
