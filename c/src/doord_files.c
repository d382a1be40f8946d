/* doord_files.c: closing the files of programs, and how many of them are kept. */
#include "doord.h"

#include <errno.h>
#include <fcntl.h>
#include <sys/resource.h>
#include <sys/socket.h>
#include <unistd.h>

/* close(2) of a socket with SO_LINGER may wait for its peer, where that is the last copy of it. */
static bool may_linger(int file)
{
	struct linger linger;
	socklen_t size = sizeof linger;

	return getsockopt(file, SOL_SOCKET, SO_LINGER, &linger, &size) == 0 && linger.l_onoff;
}

/* A child that has these files, and ends once doord has closed them: the system waits for no peer when a process ends. */
static bool begin_heir(int *until)
{
	int ends[2];
	char byte;

	if (pipe2(ends, O_CLOEXEC) < 0)
		return false;
	pid_t heir = fork();
	if (heir == 0) {
		close(ends[1]);
		while (read(ends[0], &byte, 1) < 0 && errno == EINTR)
			continue;
		_exit(0);
	}
	close(ends[0]);
	if (heir < 0)
		close(ends[1]);
	*until = ends[1];
	return heir > 0;
}

/* doord waits for no peer of a program's socket. Where there can be no heir the socket does not linger any more. */
void close_files(const int *file, unsigned files)
{
	static const struct linger none;
	bool lingers = false;
	int until = -1;

	for (unsigned i = 0; i < files; i++)
		lingers = lingers || may_linger(file[i]);
	bool has_heir = lingers && begin_heir(&until);
	for (unsigned i = 0; i < files; i++) {
		if (lingers && !has_heir && may_linger(file[i]))
			(void)setsockopt(file[i], SOL_SOCKET, SO_LINGER, &none, sizeof none);
		close(file[i]);
	}
	if (has_heir)
		close(until);
}

void close_file(int file)
{
	close_files(&file, 1);
}

/* How many files of requests that are still to come are kept for one program: together half of what doord may have open. */
unsigned most_files_kept(void)
{
	enum { LEAST = WIRE_PASSED + 2, NEEDED = WIRE_SLOTS * LEAST };
	struct rlimit limit;

	if (getrlimit(RLIMIT_NOFILE, &limit) < 0)
		return NEEDED;
	rlim_t share = limit.rlim_cur / 2 / (rlim_t)doord.places;
	return share < LEAST ? LEAST : share < NEEDED ? (unsigned)share : NEEDED;
}
