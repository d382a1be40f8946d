/*
 * libdoor_long.c: messages of more bytes than the kernel takes, where doord takes them. The bytes lie in a memory that is
 * sealed, so that nobody changes them, and go as a file does. All is done by bare system calls, which are no points of
 * cancellation.
 */
#include "libdoor.h"

#include <errno.h>
#include <fcntl.h>
#include <sys/mman.h>
#include <sys/syscall.h>
#include <unistd.h>

void close_beside(int file)
{
	int error = errno;

	(void)syscall(SYS_close, file);
	errno = error;
}

static int write_all(int file, const char *data, size_t size)
{
	for (size_t done = 0; done < size;) {
		long count = syscall(SYS_write, file, data + done, size - done);
		if (count < 0 && errno != EINTR)
			return -1;
		done += count > 0 ? (size_t)count : 0;
	}
	return 0;
}

/* A file of these bytes: -1 and errno where there is none. */
int write_beside(const char *data, size_t size)
{
	int file = (int)syscall(SYS_memfd_create, "libdoor", MFD_CLOEXEC | MFD_ALLOW_SEALING);
	void *seals = (void *)(uintptr_t)(F_SEAL_WRITE | F_SEAL_SHRINK | F_SEAL_GROW | F_SEAL_SEAL);

	if (file < 0)
		return -1;
	if (write_all(file, data, size) == 0 && real_fcntl(file, F_ADD_SEALS, seals) == 0)
		return file;
	close_beside(file);
	return -1;
}

/* So many bytes of the file, from its beginning. */
int read_beside(int file, char *to, size_t size)
{
	for (size_t done = 0; done < size;) {
		long count = syscall(SYS_pread64, file, to + done, size - done, done);
		if (count == 0 || (count < 0 && errno != EINTR))
			return -1;
		done += count > 0 ? (size_t)count : 0;
	}
	return 0;
}

/* 0 where there is no such file. */
size_t size_beside(int file)
{
	struct stat found;

	return file >= 0 && syscall(SYS_fstat, file, &found) == 0 ? (size_t)found.st_size : 0;
}

/* The argument of an invocation, as memory of its own until the thread's next one: NULL where there is no room. */
char *take_argument(int file, size_t *size)
{
	*size = size_beside(file);
	void *at = *size > 0 ? mmap(NULL, *size, PROT_READ | PROT_WRITE, MAP_PRIVATE, file, 0) : MAP_FAILED;
	if (file >= 0)
		close_beside(file);
	if (at == MAP_FAILED)
		return NULL;
	thread.argument = at;
	thread.argument_size = *size;
	return at;
}

void forget_argument(void)
{
	if (thread.argument)
		(void)munmap(thread.argument, thread.argument_size);
	thread.argument = NULL;
}
