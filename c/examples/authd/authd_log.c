/*
 * authd_log.c: each line is one write to a descriptor that appends, so threads need no lock. A daemon has /dev/null as
 * its error stream.
 */
#include <fcntl.h>
#include <stdarg.h>
#include <stdio.h>
#include <string.h>
#include <time.h>
#include <unistd.h>

#include "authd.h"

static int log_file = -1;

/* Again after SIGHUP, since the file may have been moved away. */
int log_open(const char *path)
{
	int file = open(path, O_WRONLY | O_APPEND | O_CREAT | O_CLOEXEC, 0640);

	if (file == -1)
		return -1;
	if (log_file == -1) {
		log_file = file;
		return 0;
	}
	/* under its old number, which other threads may be using just now */
	(void)dup2(file, log_file);
	(void)fcntl(log_file, F_SETFD, FD_CLOEXEC);
	return close(file);
}

/* Before all descriptors are closed. */
void log_close(void)
{
	if (log_file != -1)
		(void)close(log_file);
	log_file = -1;
}

void log_line(const char *format, ...)
{
	char line[512];
	time_t now = time(NULL);
	struct tm when;
	size_t length = 0;
	va_list words;

	if (localtime_r(&now, &when) != NULL)
		length = strftime(line, sizeof(line), "%Y-%m-%d %H:%M:%S ", &when);
	va_start(words, format);
	(void)vsnprintf(line + length, sizeof(line) - length - 1, format, words);
	va_end(words);
	(void)fprintf(stderr, "authd: %s\n", line + length);
	length = strlen(line);
	line[length++] = '\n';
	if (log_file != -1)
		(void)!write(log_file, line, length);
}
