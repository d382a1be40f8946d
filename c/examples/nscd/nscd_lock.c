/*
 * nscd_lock.c: the file with the pid, whose lock says that a daemon lives. A lock of fcntl(2) is its process's own: it is gone with the
 * process, however that ended, and a forked child does not have it. So the daemon takes it when it has forked for the last time.
 */
#include <errno.h>
#include <fcntl.h>
#include <limits.h>
#include <stdio.h>
#include <string.h>
#include <unistd.h>

#include "nscd.h"
#include "nsc_files.h"

static int lock_file = -1;

static int open_file(const char *folder, int flags)
{
	char path[PATH_MAX];

	return nsc_path(path, sizeof(path), folder, NSC_PID_FILE) == -1 ? -1 : open(path, flags | O_CLOEXEC, 0644);
}

static int write_pid(int file)
{
	char text[16];
	int length = snprintf(text, sizeof(text), "%ld\n", (long)getpid());

	return ftruncate(file, 0) == -1 || write(file, text, (size_t)length) != length ? -1 : 0;
}

/* The file stays, and open: whoever closes any descriptor of it gives the lock up. */
int lock_take(const char *folder)
{
	struct flock lock = { .l_type = F_WRLCK, .l_whence = SEEK_SET };
	int file = open_file(folder, O_RDWR | O_CREAT);

	if (file == -1)
		return -1;
	if (fcntl(file, F_SETLK, &lock) == 0) {
		lock_file = file;
		return write_pid(file);
	}
	if ((errno != EACCES && errno != EAGAIN) || fcntl(file, F_GETLK, &lock) == -1)
		return -1;
	(void)close(file);
	if (lock.l_type != F_UNLCK)
		return (int)lock.l_pid;
	errno = EAGAIN; /* it has ended just now */
	return -1;
}

/* The pid is nobody's from now on. The file stays: the next daemon may have it open already. */
void lock_end(void)
{
	if (ftruncate(lock_file, 0) == -1)
		log_line("%s: %s", NSC_PID_FILE, strerror(errno));
}

/* Waits until no daemon has it. */
void lock_wait(const char *folder)
{
	struct flock lock = { .l_type = F_RDLCK, .l_whence = SEEK_SET };
	int file = open_file(folder, O_RDONLY);

	if (file == -1)
		return;
	while (fcntl(file, F_SETLKW, &lock) == -1 && errno == EINTR)
		continue;
	(void)close(file);
}
