/* nscd_log.c: the log. Each line is one write to a descriptor that appends, so threads need no lock, and a full disk loses lines only. */
#include <errno.h>
#include <fcntl.h>
#include <limits.h>
#include <stdarg.h>
#include <stdio.h>
#include <string.h>
#include <time.h>
#include <unistd.h>

#include "nscd.h"
#include "nsc_files.h"

static int log_file = -1;

/* Again after a signal: the file may have been moved away. Threads that write meanwhile see the one or the other. */
int log_open(const char *folder)
{
	char path[PATH_MAX];
	int file;

	if (nsc_path(path, sizeof(path), folder, NSC_LOG_FILE) == -1)
		return -1;
	file = open(path, O_WRONLY | O_APPEND | O_CREAT | O_CLOEXEC, 0640);
	if (file == -1)
		return -1;
	if (log_file == -1) {
		log_file = file;
		return 0;
	}
	if (dup2(file, log_file) == -1 || fcntl(log_file, F_SETFD, FD_CLOEXEC) == -1) {
		(void)close(file);
		return -1;
	}
	return close(file);
}

void log_line(const char *format, ...)
{
	char line[512];
	time_t now = time(NULL);
	struct tm when;
	size_t begin = 0;
	int length;
	va_list words;

	if (localtime_r(&now, &when) != NULL)
		begin = strftime(line, sizeof(line), "%Y-%m-%d %H:%M:%S ", &when);
	va_start(words, format);
	length = vsnprintf(line + begin, sizeof(line) - begin - 1, format, words);
	va_end(words);
	if (length < 0)
		return;
	length = (int)strlen(line);
	line[length++] = '\n';
	/* nobody is there to be told of a log that cannot be written */
	if (log_file != -1 && write(log_file, line, (size_t)length) == -1)
		return;
}
