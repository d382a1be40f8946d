/*
 * authd_pipes.c: logs that clients have open. A client cannot write as somebody else: its lines come through a pipe of
 * its own, and the daemon, which knows by door_cred(3C) to whom it gave the writing end, puts pid and uid before each.
 * The main thread reads them all.
 */
#define _GNU_SOURCE 1
#include <errno.h>
#include <fcntl.h>
#include <poll.h>
#include <pthread.h>
#include <stdio.h>
#include <string.h>
#include <unistd.h>

#include "authd.h"

enum { PIPES_MOST = 64, LINE_MOST = 512 };

typedef struct {
	char name[AUTH_NAME_MAX];
	pid_t pid;
	uid_t uid;
	int reading, file;
	char line[LINE_MOST];
	size_t length;
} source_t;

/* In the order in which they were opened. Server threads add, and the main thread alone takes away. */
static struct {
	pthread_mutex_t lock;
	source_t source[PIPES_MOST];
	int count;
	int wake[2];
} pipes = { .lock = PTHREAD_MUTEX_INITIALIZER };

int pipes_begin(void)
{
	return pipe2(pipes.wake, O_CLOEXEC | O_NONBLOCK);
}

/*
 * Also in handlers of signals. Where the pipe is full the main thread is awake, but may miss the byte: so much is
 * never under way.
 */
void pipes_wake(char byte)
{
	int error = errno;

	(void)!write(pipes.wake[1], &byte, 1);
	errno = error;
}

static void write_line(source_t *source)
{
	char line[LINE_MOST + 64];
	int length = snprintf(line, sizeof(line), "%ld %u: %.*s\n", (long)source->pid, (unsigned)source->uid,
	    (int)source->length, source->line);

	if (write(source->file, line, (size_t)length) != length)
		log_line("%s: %s", source->name, strerror(errno));
	source->length = 0;
}

/* False at the end: no process has the writing end any more. A line that is too long becomes several. */
static bool take_lines(source_t *source)
{
	char bytes[4096];
	ssize_t size, i;

	while ((size = read(source->reading, bytes, sizeof(bytes))) > 0) {
		for (i = 0; i < size; i++) {
			if (bytes[i] != '\n')
				source->line[source->length++] = bytes[i];
			if (bytes[i] == '\n' || source->length == LINE_MOST)
				write_line(source);
		}
	}
	if (size == 0 && source->length > 0)
		write_line(source);
	return size == -1 && (errno == EAGAIN || errno == EINTR);
}

static void forget(int at)
{
	source_t *source = &pipes.source[at];

	log_line("closed: %s, by process %ld", source->name, (long)source->pid);
	(void)close(source->reading);
	(void)close(source->file);
	pipes.count--;
	(void)memmove(source, source + 1, (size_t)(pipes.count - at) * sizeof(*source));
}

/* A pipe that nobody can write into any more is not in use: the main thread is about to see that. */
static bool is_busy(const rule_t *rule, pid_t pid)
{
	int i;

	for (i = 0; i < pipes.count; i++) {
		struct pollfd hung = { .fd = pipes.source[i].reading };

		if (pipes.source[i].pid == pid && strcmp(pipes.source[i].name, rule->name) == 0 &&
		    (poll(&hung, 1, 0) < 1 || (hung.revents & POLLHUP) == 0))
			return true;
	}
	return false;
}

static int make_source(source_t *source, const rule_t *rule, int folder, int *writing)
{
	int ends[2];

	source->file = openat(folder, rule->file, O_WRONLY | O_APPEND | O_CREAT | O_CLOEXEC, 0640);
	if (source->file == -1)
		return -1;
	if (pipe2(ends, O_CLOEXEC) == -1) {
		(void)close(source->file);
		return -1;
	}
	(void)fcntl(ends[0], F_SETFL, O_NONBLOCK);
	source->reading = ends[0];
	*writing = ends[1];
	return 0;
}

auth_status_t pipes_open(const rule_t *rule, int folder, pid_t pid, uid_t uid, int *writing)
{
	source_t source = { .pid = pid, .uid = uid };
	auth_status_t status = AUTH_FAILED;

	(void)strcpy(source.name, rule->name);
	(void)pthread_mutex_lock(&pipes.lock);
	errno = EMFILE;
	if (is_busy(rule, pid)) {
		status = AUTH_BUSY;
	} else if (pipes.count < PIPES_MOST && make_source(&source, rule, folder, writing) == 0) {
		pipes.source[pipes.count++] = source;
		status = AUTH_GRANTED;
	}
	(void)pthread_mutex_unlock(&pipes.lock);
	if (status == AUTH_GRANTED)
		pipes_wake('+');
	return status;
}

char pipes_serve(void)
{
	struct pollfd ready[PIPES_MOST + 1];
	char byte = '+';
	int i, at, count;

	while (byte == '+') {
		(void)pthread_mutex_lock(&pipes.lock);
		count = pipes.count;
		for (i = 0; i < count; i++)
			ready[i] = (struct pollfd){ .fd = pipes.source[i].reading, .events = POLLIN };
		(void)pthread_mutex_unlock(&pipes.lock);
		ready[count] = (struct pollfd){ .fd = pipes.wake[0], .events = POLLIN };
		if (poll(ready, (nfds_t)count + 1, -1) < 1)
			continue;
		(void)pthread_mutex_lock(&pipes.lock);
		for (i = 0, at = 0; i < count; i++) {
			if (ready[i].revents == 0 || take_lines(&pipes.source[at]))
				at++;
			else
				forget(at);
		}
		(void)pthread_mutex_unlock(&pipes.lock);
		while (read(pipes.wake[0], &byte, 1) == 1 && byte == '+')
			continue;
	}
	return byte;
}

void pipes_end(void)
{
	(void)pthread_mutex_lock(&pipes.lock);
	while (pipes.count > 0) {
		source_t *source = &pipes.source[0];

		if (take_lines(source) && source->length > 0)
			write_line(source);
		forget(0);
	}
	(void)pthread_mutex_unlock(&pipes.lock);
}
