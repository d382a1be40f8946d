/* doord.c: doord(1), which owns a kernel of doors and serves the programs that it runs. One thread, one loop. */
#include "doord.h"

#include <errno.h>
#include <fcntl.h>
#include <signal.h>
#include <stdlib.h>
#include <string.h>
#include <sys/epoll.h>
#include <sys/socket.h>
#include <sys/stat.h>
#include <sys/syscall.h>
#include <sys/un.h>
#include <unistd.h>

struct doord doord;

enum { EVENTS_AT_ONCE = 256 };

/* Whether the descriptor can be watched. */
bool watch(int fd, struct watch *watch, uint32_t events)
{
	struct epoll_event event = { .events = events, .data.ptr = watch };

	return epoll_ctl(doord.epoll, EPOLL_CTL_ADD, fd, &event) == 0;
}

void unwatch(int fd)
{
	epoll_ctl(doord.epoll, EPOLL_CTL_DEL, fd, NULL);
}

/* What doord made outside of itself goes with it. */
void remove_files(void)
{
	if (*doord.socket_path)
		unlink(doord.socket_path);
	if (*doord.table_path)
		unlink(doord.table_path);
	if (*doord.folder)
		rmdir(doord.folder);
	*doord.socket_path = *doord.table_path = *doord.folder = 0;
}

/* A folder that nobody else looks into, for the table, and the socket where it has no other place. */
static void make_folder(void)
{
	const char *above = getenv("TMPDIR");
	char folder[sizeof doord.folder];

	if (!above || strlen(above) > sizeof folder - 20)
		above = "/tmp";
	snprintf(folder, sizeof folder, "%s/doord-XXXXXX", above);
	if (!mkdtemp(folder))
		fail("%s: %s", above, strerror(errno));
	strcpy(doord.folder, folder);
	snprintf(doord.table_path, sizeof doord.table_path, "%s/table", folder);
}

static void open_socket(void)
{
	struct sockaddr_un address = { .sun_family = AF_UNIX };
	char path[160];

	if (doord.options.socket && doord.options.socket[0] == '/')
		snprintf(path, sizeof path, "%s", doord.options.socket);
	else if (doord.options.socket)
		fail("%s: the socket's path begins with /", doord.options.socket);
	else
		snprintf(path, sizeof path, "%s/socket", doord.folder);
	if (strlen(path) >= sizeof address.sun_path)
		fail("%s: the socket's path is too long", path);
	memcpy(address.sun_path, path, strlen(path) + 1);
	doord.listener = socket(AF_UNIX, SOCK_SEQPACKET | SOCK_CLOEXEC | SOCK_NONBLOCK, 0);
	mode_t mask = umask(0177);
	if (doord.listener < 0 || bind(doord.listener, (struct sockaddr *)&address, sizeof address) < 0)
		fail("%s: %s", path, strerror(errno));
	umask(mask);
	memcpy(doord.socket_path, address.sun_path, sizeof doord.socket_path);
	if (listen(doord.listener, 128) < 0)
		fail("%s: %s", path, strerror(errno));
}

static bool has_library(const char *folder)
{
	char file[sizeof doord.library + sizeof "/" DOORD_LIBRARY];

	snprintf(file, sizeof file, "%s/" DOORD_LIBRARY, folder);
	return access(file, R_OK) == 0;
}

/*
 * The library lies beside doord, or a folder up, as a doord that is built to be tested stands below the other; or in lib beside doord's
 * folder, where both are installed.
 */
static void find_library(void)
{
	static const char installed[] = "/lib";
	const size_t room = sizeof doord.library - sizeof installed;
	ssize_t n = readlink("/proc/self/exe", doord.library, room);

	if (n <= 0)
		fail("/proc/self/exe: %s", strerror(errno));
	if ((size_t)n == room)
		fail("/proc/self/exe: %s", strerror(ENAMETOOLONG));
	doord.library[n] = 0;
	for (int up = 0; up < 2; up++) {
		char *last = strrchr(doord.library, '/');
		if (last)
			*last = 0;
		if (last && has_library(doord.library))
			return;
	}
	strcat(doord.library, installed);
	if (!has_library(doord.library))
		fail("there is no " DOORD_LIBRARY " beside doord");
}

/* one round of the loop: what came by a control socket is taken before what speaks of it, and ends come last */

static void take_event(struct watch *watch, enum watch_kind kind)
{
	struct client *client = watch->client;

	if (watch->kind != kind || (client && client->is_gone))
		return;
	switch (kind) {
	case WATCH_LISTEN:
		take_connection();
		break;
	case WATCH_CONTROL:
		take_some_messages(client);
		break;
	case WATCH_BELL:
		take_requests(client);
		break;
	case WATCH_STAND_IN:
		stand_in_gone(client, watch->row);
		break;
	case WATCH_DEATH:
		end_client(client);
		break;
	case WATCH_SIGNALS:
		take_signals();
		break;
	}
}

static void take_events(const struct epoll_event *event, int count)
{
	static const enum watch_kind order[] = { WATCH_LISTEN, WATCH_CONTROL, WATCH_BELL, WATCH_STAND_IN, WATCH_DEATH, WATCH_SIGNALS };

	for (unsigned k = 0; k < sizeof order / sizeof *order; k++)
		for (int i = 0; i < count && !doord.is_full; i++)
			take_event(event[i].data.ptr, order[k]);
}

static bool is_over(void)
{
	return doord.is_full || doord.is_stalled || (doord.command_ended && doord.no_children && !doord.clients);
}

/* How long the loop may sleep, in milliseconds; -1 for good. */
static int time_to_sleep(void)
{
	const int time[] = { time_to_look(), time_for_orphans(), time_for_timers() };
	int first = -1;

	for (unsigned i = 0; i < sizeof time / sizeof *time; i++)
		if (time[i] >= 0 && (first < 0 || time[i] < first))
			first = time[i];
	return first;
}

static void serve(void)
{
	struct epoll_event event[EVENTS_AT_ONCE];

	take_signals();
	while (!is_over()) {
		int count = epoll_wait(doord.epoll, event, EVENTS_AT_ONCE, time_to_sleep());
		if (count < 0 && errno != EINTR)
			fail("epoll_wait: %s", strerror(errno));
		take_events(event, count > 0 ? count : 0);
		end_orphans();
		run_timers();
		hand_over();
		free_gone();
		if (count > 0)
			note_activity();
		look_around();
	}
}

static void kill_places(void)
{
	for (int i = 2; i <= doord.places && !doord.is_full; i++)
		if (doord.place[i].is_born && !doord.place[i].is_spent) {
			struct asked kill = { .op = KERNEL_OP_KILL, .a = (uint32_t)i };
			enter_kernel(1, &kill);
		}
}

/* init ends what is left, and then itself, so that the history is complete; at a stall those stay who wait, so that its last line names them. */
static void end_all(void)
{
	struct asked end = { .op = KERNEL_OP_EXIT };

	if (doord.is_stalled)
		end_unused_threads();
	else
		kill_places();
	if (!doord.is_full)
		enter_kernel(1, &end);
	close_history();
}

static int end_with(void)
{
	if (doord.is_full)
		complain("the history has 1,000,000 events, the most that there can be: the programs are ended");
	else if (doord.is_stalled)
		tell_stall();
	end_all();
	remove_files();
	if (!doord.is_full && !doord.is_stalled)
		return doord.command_status;
	end_programs();
	return doord.is_full ? DOORD_EVENTS : DOORD_STALL;
}

/* Where a standard stream is closed nothing else is to lie in its place; the command has it closed as before. */
static void open_streams(void)
{
	int file;

	do
		file = open("/dev/null", O_RDWR | O_CLOEXEC);
	while (file >= 0 && file <= 2);
	doord.reserve = file;
}

int main(int count, char **words)
{
	static struct watch on_listen = { WATCH_LISTEN, NULL, 0 }, on_signals = { WATCH_SIGNALS, NULL, 0 };

	open_streams();
	note_pipes();
	read_options(count, words, &doord.options);
	take_over_signals();
	lay_out_places();
	doord.epoll = epoll_create1(EPOLL_CLOEXEC);
	if (doord.epoll < 0)
		fail("epoll_create1: %s", strerror(errno));
	find_library();
	open_kernel();
	tell_long();
	make_folder();
	open_table();
	open_socket();
	start_command();
	if (!watch(doord.listener, &on_listen, EPOLLIN) || !watch(doord.signals, &on_signals, EPOLLIN))
		fail("epoll_ctl: %s", strerror(errno));
	serve();
	return end_with();
}
