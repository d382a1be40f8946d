/* doorwait.c: doorwait(1), which waits until a server is there: a valid door that is attached to PATH. */
#include <errno.h>
#include <stdio.h>
#include <stdlib.h>
#include <string.h>

int libdoor_await(const char *path, long most);

static const char usage[] = "usage: doorwait [-t SECONDS] PATH\n";

/* A number of seconds, in milliseconds; -1 where it is none. */
static long read_seconds(const char *word)
{
	char *end;
	double seconds = strtod(word, &end);

	return *word && *end == 0 && seconds >= 0 && seconds <= 1000000 ? (long)(seconds * 1000) : -1;
}

int main(int count, char **words)
{
	long most = -1;
	int at = 1;

	if (count == 2 && strcmp(words[1], "--help") == 0) {
		printf("%sWaits until a door of a living server is attached to PATH, where nothing need be yet; -t: status 1 after so many seconds.\n", usage);
		return fflush(stdout) == 0 ? 0 : 1;
	}
	if (count == 4 && strcmp(words[1], "-t") == 0) {
		most = read_seconds(words[2]);
		at = 3;
	}
	if (count != at + 1 || words[at][0] == 0 || (at == 3 && most < 0)) {
		fputs(usage, stderr);
		return 2;
	}
	if (libdoor_await(words[at], most) < 0) {
		fprintf(stderr, "doorwait: %s: %s\n", words[at], strerror(errno));
		return 1;
	}
	return 0;
}
