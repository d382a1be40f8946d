/*
 * doord_look.c: what the system says of the processes below doord: who they are, and whether a thread of theirs may
 * do something.
 *
 * All is still where in two looks the same threads sleep, and none was awake between them, which its counts of
 * context switches tell. Of a thread that waits for doord they are not asked: it looks up each second, and whatever
 * else wakes it doord sees.
 */
#include "doord.h"

#include <ctype.h>
#include <dirent.h>
#include <errno.h>
#include <linux/futex.h>
#include <stdlib.h>
#include <string.h>
#include <sys/stat.h>
#include <sys/syscall.h>
#include <unistd.h>

enum { PIPES = 64 };

/* Pipes that were there before any program: somebody outside may have their other ends. */
static struct {
	dev_t device; /* of pipes without a name; 0: of none is anything known */
	unsigned count;
	ino_t outside[PIPES];
} pipes;

/* doord has no descriptor for /proc */
static bool is_blind;

/* files of /proc */

static bool read_file(const char *name, char *text, size_t room)
{
	FILE *file = fopen(name, "re");

	if (!file) {
		is_blind = is_blind || errno == EMFILE || errno == ENFILE;
		return false;
	}
	size_t n = fread(text, 1, room - 1, file);
	text[n] = 0;
	fclose(file);
	return n > 0;
}

/* Whether a process whose main has ended goes on by other threads. */
static bool has_other_threads(pid_t pid)
{
	char name[64];
	unsigned threads = 0;

	snprintf(name, sizeof name, "/proc/%d/task", (int)pid);
	DIR *folder = opendir(name);
	if (!folder)
		return false;
	for (struct dirent *entry; (entry = readdir(folder));)
		threads += isdigit((unsigned char)entry->d_name[0]) != 0;
	closedir(folder);
	return threads > 1;
}

/* The parent of a process, 0 where it is not there, or has ended. */
pid_t parent_of(pid_t pid)
{
	char name[64], text[1024];

	snprintf(name, sizeof name, "/proc/%d/stat", (int)pid);
	char *end = read_file(name, text, sizeof text) ? strrchr(text, ')') : NULL;
	char state;
	int parent;
	if (!end || sscanf(end + 1, " %c %d", &state, &parent) != 2 || state == 'X' || (state == 'Z' && !has_other_threads(pid)))
		return 0;
	return parent;
}

/* Whether doord has started it, or another that did. */
bool is_below(pid_t pid)
{
	pid_t self = getpid();

	for (int depth = 0; pid > 1 && depth < 1000; depth++) {
		pid = parent_of(pid);
		if (pid == self)
			return true;
	}
	return false;
}

static bool is_connected(pid_t pid)
{
	for (const struct client *client = doord.clients; client; client = client->next)
		if (client->pid == pid)
			return true;
	return false;
}

/* libdoor waits for doord with a time, and is alone in waiting so for a word that is shared. */
static bool waits_for_doord(const char *call)
{
	long number;
	unsigned long word[4] = { 0 };

	if (sscanf(call, "%ld %lx %lx %lx %lx", &number, &word[0], &word[1], &word[2], &word[3]) < 5)
		return false;
	return number == SYS_futex && word[1] == FUTEX_WAIT && word[3] != 0;
}

/* the system's numbers of what may sleep for good, until somebody else does something */
static bool sleeps_for_others(const char *call)
{
	long number;
	unsigned long word[6] = { 0 };

	if (sscanf(call, "%ld %lx %lx %lx %lx", &number, &word[0], &word[1], &word[2], &word[3]) < 1)
		return false;
	switch (number) {
	case SYS_futex:
		return word[3] == 0;
	case SYS_pause:
	case SYS_rt_sigsuspend:
	case SYS_wait4:
	case SYS_waitid:
		return true;
	case SYS_rt_sigtimedwait:
		return word[2] == 0;
	default:
		return false;
	}
}

/*
 * Whether a thread of this process reads or writes what only processes below doord can have open: a pipe that was
 * made below.
 */
static bool waits_for_inner_pipe(pid_t process, const char *call)
{
	long number;
	unsigned long file;
	char name[64];
	struct stat found;

	if (sscanf(call, "%ld %lx", &number, &file) < 2)
		return false;
	if (number != SYS_read && number != SYS_readv && number != SYS_write && number != SYS_writev)
		return false;
	snprintf(name, sizeof name, "/proc/%d/fd/%lu", (int)process, file);
	if (stat(name, &found) != 0 || !S_ISFIFO(found.st_mode) || found.st_dev != pipes.device)
		return false;
	for (unsigned i = 0; i < pipes.count; i++)
		if (pipes.outside[i] == found.st_ino)
			return false;
	return true;
}

/* The thread has ended, and its process was not waited for yet, or goes on by other threads: it has no stack any more. */
static bool has_ended(const char *call)
{
	return strcmp(call, "-1 0x0 0x0\n") == 0;
}

/* Whether what this thread sleeps in, as the system tells it, is ended by doord, or by others below, and by nothing else. */
bool sleeps_inside(pid_t process, const char *call)
{
	return waits_for_doord(call) || sleeps_for_others(call) || has_ended(call) || waits_for_inner_pipe(process, call);
}

static void note_pipe(int fd)
{
	struct stat found;

	if (fstat(fd, &found) != 0 || !S_ISFIFO(found.st_mode) || found.st_dev != pipes.device)
		return;
	if (pipes.count == PIPES)
		pipes.device = 0;
	else
		pipes.outside[pipes.count++] = found.st_ino;
}

/* Before anything is started: pipes that COMMAND has are those that doord has. */
void note_pipes(void)
{
	struct stat found;
	int end[2];

	if (pipe(end) != 0)
		return;
	if (fstat(end[0], &found) == 0)
		pipes.device = found.st_dev;
	close(end[0]);
	close(end[1]);
	DIR *folder = opendir("/proc/self/fd");
	if (!folder)
		pipes.device = 0;
	for (struct dirent *entry; folder && (entry = readdir(folder));)
		if (isdigit((unsigned char)entry->d_name[0]))
			note_pipe(atoi(entry->d_name));
	if (folder)
		closedir(folder);
}

static unsigned long number_after(const char *text, const char *word)
{
	const char *at = strstr(text, word);

	return at ? strtoul(at + strlen(word), NULL, 10) : 0;
}

/* A thread that sleeps. */
static void see_sleeper(struct look *look, struct seen *seen)
{
	char name[96], text[256];

	snprintf(name, sizeof name, "/proc/%d/task/%d/syscall", (int)seen->process, (int)seen->thread);
	if (!read_file(name, text, sizeof text)) {
		look->is_outside = look->is_movable = true;
	} else if (is_connected(seen->process) && waits_for_doord(text)) {
		seen->switches = 0;
	} else if (!sleeps_for_others(text)) {
		look->is_outside = true;
		if (!waits_for_inner_pipe(seen->process, text))
			look->is_movable = true;
	}
}

static void see_thread(struct look *look, pid_t process, pid_t thread)
{
	char name[96], text[4096];

	snprintf(name, sizeof name, "/proc/%d/task/%d/status", (int)process, (int)thread);
	if (!read_file(name, text, sizeof text))
		return;
	const char *state = strstr(text, "State:\t");
	if (look->count == LOOK_THREADS || !state || !strchr("STtZX", state[7]))
		look->is_still = false;
	if (look->count == LOOK_THREADS || !state || strchr("ZX", state[7]))
		return;
	struct seen *seen = &look->seen[look->count++];
	seen->process = process;
	seen->thread = thread;
	seen->switches = number_after(text, "\nvoluntary_ctxt_switches:") + number_after(text, "nonvoluntary_ctxt_switches:");
	if (state[7] == 'S')
		see_sleeper(look, seen);
	else
		look->is_movable = true; /* whoever has stopped it lets it go on */
}

/*
 * Whether the process has timers of timer_create(2), also such as are not set; those of alarm(2) the system does not
 * show.
 */
static bool may_have_timers(pid_t pid)
{
	char name[64], text[16];

	snprintf(name, sizeof name, "/proc/%d/timers", (int)pid);
	FILE *file = fopen(name, "re");
	if (!file)
		return true;
	size_t n = fread(text, 1, sizeof text, file);
	fclose(file);
	return n > 0;
}

static void see_process(struct look *look, pid_t pid)
{
	char name[64];

	snprintf(name, sizeof name, "/proc/%d/task", (int)pid);
	DIR *folder = opendir(name);
	if (!folder)
		return;
	for (struct dirent *entry; (entry = readdir(folder));)
		if (isdigit((unsigned char)entry->d_name[0]))
			see_thread(look, pid, (pid_t)atoi(entry->d_name));
	closedir(folder);
	if (may_have_timers(pid))
		look->is_movable = true;
}

/* All processes below doord. */
void each_below(void (*act)(pid_t pid, void *with), void *with)
{
	DIR *folder = opendir("/proc");

	is_blind = !folder;
	if (!folder)
		return;
	for (struct dirent *entry; (entry = readdir(folder));) {
		pid_t pid = isdigit((unsigned char)entry->d_name[0]) ? (pid_t)atoi(entry->d_name) : 0;
		if (pid > 0 && is_below(pid))
			act(pid, with);
	}
	closedir(folder);
}

static void see(pid_t pid, void *look)
{
	see_process(look, pid);
}

void look_at_all(struct look *look)
{
	memset(look, 0, offsetof(struct look, seen));
	look->is_still = true;
	each_below(see, look);
	look->is_still = look->is_still && !is_blind;
}

/* Whether nobody was awake from one to the other. */
bool is_same_look(const struct look *a, const struct look *b)
{
	return a->count == b->count && memcmp(a->seen, b->seen, a->count * sizeof *a->seen) == 0;
}

