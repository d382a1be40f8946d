/* doord_options.c: the words of the command line, and messages. */
#include "doord.h"

#include <errno.h>
#include <poll.h>
#include <stdarg.h>
#include <stdlib.h>
#include <string.h>
#include <unistd.h>

static const char usage[] = "usage: doord [-b PROGRAM=THREADS,SPARES,CHILDREN].. [-l LIMIT] [-o FILE] [-S SOCKET] [--eagain] [--long] [--no-preload] [--patience SECONDS] [--stay] -- COMMAND ..\n";

static const char help[] =
	"\n"
	"Runs COMMAND, and all that it starts, on a kernel of doors, and writes what they did there.\n"
	"\n"
	"  -b PROGRAM=THREADS,SPARES,CHILDREN  a process of the kernel for this program: so many of its threads may use doors at once, so many\n"
	"                                      server threads may be started, and so many forks may hand descriptors on; again for another\n"
	"                                      process. '*' is any program, and takes all that is left (2,4,0 without it)\n"
	"  -l LIMIT                            descriptors of a process, 1 to 256 (256)\n"
	"  -o FILE                             the history (doord.history); doorlab history FILE judges it\n"
	"  -S SOCKET                           the control socket (without it in a folder of its own)\n"
	"  --eagain                            the 33rd call that waits in a pool is EAGAIN (without it, it is held back until there is room)\n"
	"  --long                              messages above 4,096 bytes go beside the kernel, up to 16,777,216 (without it they are E2BIG)\n"
	"  --no-preload                        LD_PRELOAD stays as it is\n"
	"  --patience SECONDS                  how long is waited for programs that sleep for a time, in a read or at descriptors, once COMMAND has\n"
	"                                      ended; and how long all have to be quiet before a stall is said (1)\n"
	"  --stay                              what COMMAND leaves behind is waited for (without it, it is ended once all is quiet)\n"
	"  -h, --help, --version\n"
	"\n"
	"Ends with COMMAND's status; 122 after the last event that a history may have, 124 where programs wait for each other in calls, 125\n"
	"where doord failed, 126 and 127 where COMMAND could not be run, or was not found.\n";

/* The error stream may be a pipe that the programs below have filled, and that nobody reads: then nothing is said. */
static bool is_heard(void)
{
	enum { PATIENCE = 1000 };
	static int patience = PATIENCE;
	struct pollfd stream = { .fd = STDERR_FILENO, .events = POLLOUT };
	bool is_ready = poll(&stream, 1, patience) != 0;

	patience = is_ready ? PATIENCE : 0;
	return is_ready;
}

/* A program's name may have any bytes, and a terminal obeys some. */
static void say(const char *form, va_list list)
{
	char line[1024];
	vsnprintf(line, sizeof line, form, list);
	for (unsigned char *at = (unsigned char *)line; *at; at++)
		if (*at < 0x20 || *at == 0x7f || (*at == 0xc2 && at[1] >= 0x80 && at[1] <= 0x9f))
			*at = '?';
	if (is_heard())
		fprintf(stderr, "doord: %s\n", line);
}

void complain(const char *form, ...)
{
	va_list list;
	va_start(list, form);
	say(form, list);
	va_end(list);
}

/* What doord cannot do is told, and it ends. What programs still wait for, they see that it is gone. */
void fail(const char *form, ...)
{
	va_list list;
	va_start(list, form);
	say(form, list);
	va_end(list);
	remove_files();
	exit(DOORD_FAILED);
}

static _Noreturn void misused(const char *why, const char *word)
{
	fprintf(stderr, "doord: %s%s%s\n%s", why, word ? ": " : "", word ? word : "", usage);
	exit(DOORD_FAILED);
}

/* A number in decimal, which ends with this byte. */
static const char *read_number(const char *text, char after, unsigned most, unsigned *number)
{
	unsigned value = 0;
	const char *at = text;

	while (*at >= '0' && *at <= '9' && value <= most)
		value = value * 10 + (unsigned)(*at++ - '0');
	if (at == text || value > most || *at != after)
		return NULL;
	*number = value;
	return at + 1;
}

static void read_shape(struct options *options, const char *word)
{
	const char *equals = strrchr(word, '=');
	struct shape *shape = &options->shape[options->shapes];

	if (options->shapes == DOORD_SHAPES)
		misused("there are too many -b", NULL);
	if (!equals || equals == word || (size_t)(equals - word) >= sizeof shape->program)
		misused("not PROGRAM=THREADS,SPARES,CHILDREN", word);
	if (memchr(word, '/', (size_t)(equals - word)))
		misused("a program is named without its folder", word);
	memcpy(shape->program, word, (size_t)(equals - word));
	shape->program[equals - word] = 0;
	const char *at = read_number(equals + 1, ',', DOORD_MEMBERS, &shape->threads);
	at = at ? read_number(at, ',', DOORD_MEMBERS, &shape->spares) : NULL;
	at = at ? read_number(at, 0, DOORD_PLACES, &shape->children) : NULL;
	if (!at || shape->threads == 0)
		misused("not PROGRAM=THREADS,SPARES,CHILDREN, with one thread at least", word);
	options->shapes++;
}

static void read_limit(struct options *options, const char *word)
{
	if (!read_number(word, 0, DOORD_ROWS, &options->limit) || options->limit == 0)
		misused("not a limit from 1 to 256", word);
}

static void read_patience(struct options *options, const char *word)
{
	char *end = NULL;
	double seconds = word ? strtod(word, &end) : -1;

	if (!word || !*word || *end || !(seconds >= 0 && seconds <= 1000000))
		misused("not a number of seconds", word);
	options->patience = (unsigned)(seconds * 1000);
}

/* An option that takes a word. */
static void read_pair(struct options *options, const char *option, const char *word)
{
	if (!word)
		misused("a word is missing after", option);
	if (option[1] == 'b')
		read_shape(options, word);
	else if (option[1] == 'l')
		read_limit(options, word);
	else if (option[1] == 'o')
		options->history = word;
	else
		options->socket = word;
}

void read_options(int count, char **words, struct options *options)
{
	int at = 1;

	options->limit = DOORD_ROWS;
	options->patience = 1000;
	options->history = "doord.history";
	for (; at < count && words[at][0] == '-' && strcmp(words[at], "--") != 0; at++) {
		const char *word = words[at];
		if (strcmp(word, "--help") == 0 || strcmp(word, "-h") == 0) {
			printf("%s%s", usage, help);
			exit(fflush(stdout) == 0 ? 0 : DOORD_FAILED);
		} else if (strcmp(word, "--version") == 0) {
			printf("doord 1\n");
			exit(fflush(stdout) == 0 ? 0 : DOORD_FAILED);
		} else if (strcmp(word, "--eagain") == 0) {
			options->eagain = true;
		} else if (strcmp(word, "--long") == 0) {
			options->takes_long = true;
		} else if (strcmp(word, "--stay") == 0) {
			options->stay = true;
		} else if (strcmp(word, "--patience") == 0) {
			read_patience(options, at + 1 < count ? words[at + 1] : NULL);
			at++;
		} else if (strcmp(word, "--no-preload") == 0) {
			options->no_preload = true;
		} else if (strlen(word) == 2 && strchr("bloS", word[1])) {
			read_pair(options, word, at + 1 < count ? words[at + 1] : NULL);
			at++;
		} else {
			misused("there is no option", word);
		}
	}
	if (at < count && strcmp(words[at], "--") == 0)
		at++;
	if (at >= count)
		misused("there is no command", NULL);
	options->command = words + at;
}
