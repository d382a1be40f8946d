/*
 * doord_still.c: whether all is quiet, asked often. The processes below doord are known by the system's lists of
 * children, and of each thread the files of /proc stay open that say how often it was given a processor, and in which
 * system call it sleeps.
 *
 * All is quiet where in two looks the same threads sleep, and none was given a processor between: then all slept at
 * one moment. A thread that is woken and has no processor yet does not sleep in the second look.
 */
#include "doord.h"

#include <ctype.h>
#include <dirent.h>
#include <errno.h>
#include <fcntl.h>
#include <stdlib.h>
#include <string.h>
#include <sys/stat.h>
#include <unistd.h>

enum { MOST_DEPTH = 64, MOST_PROCESSES = 4096, LIST = 16384 };

/* A thread. */
struct sleeper {
	pid_t thread;
	int count, call, children; /* its files */
	uint64_t switched; /* how often it was given a processor, at the last look */
	uint64_t slept;    /* the same as it was last seen asleep, and 1; 0: it never was */
	uint64_t since;    /* when it was first seen asleep so */
	bool is_outside;   /* what it sleeps for may come from outside, or is a time */
	uint32_t brood;    /* a sum of its list of children */
};

struct process {
	pid_t pid;
	int folder; /* of its threads */
	nlink_t links;
	unsigned threads;
	struct sleeper *thread;
};

/* Those below doord: each before its children, which stand in the order in which they began. */
static struct {
	struct process *process;
	unsigned count, room;
	bool is_known;      /* the table is that of the system, as far as is known */
	bool counts_status; /* the system does not count in schedstat */
	int self;           /* doord's own list of children; -1: not open yet */
	uint32_t brood;
} own = { .self = -1 };

/* files */

static int open_in(pid_t process, pid_t thread, const char *what)
{
	char name[96];

	snprintf(name, sizeof name, "/proc/%d/task/%d/%s", (int)process, (int)thread, what);
	int file = open(name, O_RDONLY | O_CLOEXEC);
	if (file < 0 && (errno == EMFILE || errno == ENFILE))
		fail("there is no descriptor left to look at programs: raise the limit of open files");
	return file;
}

/* The text of a file of /proc; false where its thread has ended: then the table is not the system's any more. */
static bool read_again(int file, char *text, size_t room)
{
	ssize_t n = file < 0 ? -1 : pread(file, text, room - 1, 0);

	text[n > 0 ? n : 0] = 0;
	if (n < 0)
		own.is_known = false;
	return n >= 0;
}

static uint32_t sum_of(const char *text)
{
	uint32_t sum = 2166136261u;

	for (; *text; text++)
		sum = (sum ^ (unsigned char)*text) * 16777619u;
	return sum;
}

static uint64_t number_after(const char *text, const char *word)
{
	const char *at = strstr(text, word);

	return at ? strtoull(at + strlen(word), NULL, 10) : 0;
}

/* How often the thread was given a processor, by what the system counts. */
static bool read_switches(const struct sleeper *sleeper, uint64_t *switched)
{
	char text[4096];

	if (!read_again(sleeper->count, text, sizeof text) || !*text)
		return false;
	if (own.counts_status) {
		*switched = number_after(text, "\nvoluntary_ctxt_switches:") + number_after(text, "nonvoluntary_ctxt_switches:");
	} else {
		const char *last = strrchr(text, ' ');
		*switched = last ? strtoull(last, NULL, 10) : 0;
	}
	return true;
}

/* the table */

static void forget_sleeper(struct sleeper *sleeper)
{
	const int file[] = { sleeper->count, sleeper->call, sleeper->children };

	for (unsigned i = 0; i < sizeof file / sizeof *file; i++)
		if (file[i] >= 0)
			close(file[i]);
}

static void forget_process(struct process *process)
{
	for (unsigned i = 0; i < process->threads; i++)
		forget_sleeper(&process->thread[i]);
	free(process->thread);
	if (process->folder >= 0)
		close(process->folder);
}

static bool open_sleeper(struct sleeper *sleeper, pid_t process, pid_t thread)
{
	*sleeper = (struct sleeper){ .thread = thread };
	sleeper->count = open_in(process, thread, own.counts_status ? "status" : "schedstat");
	sleeper->call = open_in(process, thread, "syscall");
	sleeper->children = open_in(process, thread, "children");
	if (sleeper->count >= 0 && sleeper->call >= 0 && sleeper->children >= 0)
		return true;
	forget_sleeper(sleeper);
	return false;
}

/* One that was known already keeps its files. */
static bool take_known(struct process *before, pid_t thread, struct sleeper *sleeper)
{
	for (unsigned i = 0; before && i < before->threads; i++)
		if (before->thread[i].thread == thread && read_switches(&before->thread[i], &before->thread[i].switched)) {
			*sleeper = before->thread[i];
			before->thread[i] = before->thread[--before->threads];
			return true;
		}
	return false;
}

static void *more_room(void *old, size_t count, size_t size)
{
	void *room = realloc(old, count * size);

	if (!room)
		fail("there is no memory");
	return room;
}

/* The threads of a process, in the order of their numbers; false where they change as they are read. */
static bool list_threads(struct process *process, struct process *before)
{
	int again = openat(process->folder, ".", O_RDONLY | O_DIRECTORY | O_CLOEXEC);
	DIR *folder = again >= 0 ? fdopendir(again) : NULL;
	unsigned room = 0;
	bool is_sound = true;

	if (!folder) {
		if (again >= 0)
			close(again);
		return false;
	}
	for (struct dirent *entry; is_sound && (entry = readdir(folder));) {
		pid_t thread = isdigit((unsigned char)entry->d_name[0]) ? (pid_t)atoi(entry->d_name) : 0;
		if (thread == 0)
			continue;
		if (process->threads == room)
			process->thread = more_room(process->thread, room = room ? 2 * room : 8, sizeof *process->thread);
		struct sleeper *sleeper = &process->thread[process->threads];
		is_sound = take_known(before, thread, sleeper) || open_sleeper(sleeper, process->pid, thread);
		process->threads += is_sound;
	}
	closedir(folder);
	return is_sound;
}

static struct process *find_process(struct process *all, unsigned count, pid_t pid)
{
	for (unsigned i = 0; i < count; i++)
		if (all[i].pid == pid)
			return &all[i];
	return NULL;
}

struct scan {
	struct process *before;
	unsigned count; /* of before */
	bool is_sound;
};

static void scan_children(struct scan *scan, int children, uint32_t *brood, unsigned depth);

/* A process, and those below it. One that has ended and was not waited for yet is none. */
static void scan_process(struct scan *scan, pid_t pid, unsigned depth)
{
	char name[64];
	struct stat found;
	struct process process = { .pid = pid };

	snprintf(name, sizeof name, "/proc/%d/task", (int)pid);
	process.folder = open(name, O_RDONLY | O_DIRECTORY | O_CLOEXEC);
	if (process.folder < 0 || fstat(process.folder, &found) < 0 || depth == MOST_DEPTH || own.count == MOST_PROCESSES) {
		scan->is_sound = false;
		return;
	}
	process.links = found.st_nlink;
	if (!list_threads(&process, find_process(scan->before, scan->count, pid)))
		scan->is_sound = false;
	if (own.count == own.room)
		own.process = more_room(own.process, own.room = own.room ? 2 * own.room : 16, sizeof *own.process);
	unsigned at = own.count++;
	own.process[at] = process;
	/* the table may move as it grows */
	for (unsigned i = 0; i < process.threads; i++)
		scan_children(scan, process.thread[i].children, &own.process[at].thread[i].brood, depth + 1);
}

static void scan_children(struct scan *scan, int children, uint32_t *brood, unsigned depth)
{
	char list[LIST];

	if (!read_again(children, list, sizeof list)) {
		scan->is_sound = false;
		return;
	}
	if (strlen(list) == sizeof list - 1)
		fail("a program has too many children for their order to be known");
	*brood = sum_of(list);
	for (char *at = list, *end; (end = strchr(at, ' ')); at = end + 1)
		scan_process(scan, (pid_t)atoi(at), depth);
}

static void begin_to_look(void)
{
	struct sleeper self = { .count = -1 };
	uint64_t switched = 0;

	own.self = open_in(getpid(), getpid(), "children");
	if (own.self < 0)
		fail("the system does not list the children of a process, by which orders are chosen");
	self.count = open_in(getpid(), getpid(), "schedstat");
	own.counts_status = !read_switches(&self, &switched) || switched == 0;
	if (self.count >= 0)
		close(self.count);
}

/* The processes below doord, anew. */
static void know_all(void)
{
	struct scan scan = { own.process, own.count, true };

	own.process = NULL;
	own.count = own.room = 0;
	scan_children(&scan, own.self, &own.brood, 0);
	for (unsigned i = 0; i < scan.count; i++)
		forget_process(&scan.before[i]);
	free(scan.before);
	own.is_known = scan.is_sound;
}

/* looks */

/* Whether those that were listed are still all that there are. */
static bool is_same_brood(int children, uint32_t brood)
{
	char list[LIST];

	if (read_again(children, list, sizeof list) && sum_of(list) == brood)
		return true;
	own.is_known = false;
	return false;
}

/* Whether it sleeps; what for is asked where it has run since. */
static bool is_asleep(const struct process *process, struct sleeper *sleeper, uint64_t time)
{
	char call[256];

	if (!read_again(sleeper->call, call, sizeof call))
		return false;
	if (!*call || strncmp(call, "running", 7) == 0)
		return false;
	if (sleeper->slept != sleeper->switched + 1) {
		sleeper->slept = sleeper->switched + 1;
		sleeper->since = time;
		sleeper->is_outside = !sleeps_inside(process->pid, call);
	}
	return true;
}

/* The first look at a thread: one that has not run since it slept is not asked whether it does. */
static bool look_first(const struct process *process, struct sleeper *sleeper, uint64_t time)
{
	if (!read_switches(sleeper, &sleeper->switched))
		return false;
	return sleeper->slept == sleeper->switched + 1 || is_asleep(process, sleeper, time);
}

static bool look_second(const struct process *process, struct sleeper *sleeper, uint64_t time)
{
	uint64_t switched;

	return is_same_brood(sleeper->children, sleeper->brood) && is_asleep(process, sleeper, time)
		&& read_switches(sleeper, &switched) && switched == sleeper->switched;
}

typedef bool looker(const struct process *process, struct sleeper *sleeper, uint64_t time);

static bool look(looker *at, uint64_t time)
{
	struct stat found;

	for (unsigned i = 0; i < own.count; i++) {
		const struct process *process = &own.process[i];
		if (fstat(process->folder, &found) < 0 || found.st_nlink != process->links)
			return own.is_known = false;
		for (unsigned t = 0; t < process->threads; t++)
			if (!at(process, &process->thread[t], time))
				return false;
	}
	return true;
}

/* Whether all slept at one moment of this call. */
static bool did_all_sleep(uint64_t time)
{
	if (!own.is_known)
		know_all();
	return own.is_known && look(look_first, time) && is_same_brood(own.self, own.brood) && look(look_second, time);
}

enum stillness look_still(uint64_t waited)
{
	uint64_t time = now();
	enum stillness still = STILL_ALL;

	if (own.self < 0)
		begin_to_look();
	if (!did_all_sleep(time))
		return STILL_NOT;
	for (unsigned i = 0; i < own.count; i++)
		for (unsigned t = 0; t < own.process[i].threads; t++) {
			const struct sleeper *sleeper = &own.process[i].thread[t];
			if (!sleeper->is_outside)
				continue;
			if (time - sleeper->since < doord.options.patience && time - waited < doord.options.patience)
				return STILL_OUTSIDE;
			still = STILL_LONG;
		}
	return still;
}

/* The place of a process in the order of those below doord; a number above all where it is not there. */
unsigned rank_below(pid_t pid)
{
	const struct process *process = find_process(own.process, own.count, pid);

	return process ? (unsigned)(process - own.process) : MOST_PROCESSES;
}
