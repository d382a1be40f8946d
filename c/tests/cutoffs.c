/*
 * cutoffs WAY: a program that speaks to doord without the library, and ends, stops or goes on where it should not. It alone is cut off, or
 * told so.
 */
#define _GNU_SOURCE 1
#include "raw.h"

#include <arpa/inet.h>
#include <netinet/in.h>
#include <sys/resource.h>

enum { KNOCKS = 10000, INTERRUPTS = 2000, MANY_FILES = 253, EXECS = 200 };

/* Whether doord has hung up. */
static int is_cut_off(int control)
{
	struct pollfd end = { control, POLLIN, 0 };
	char byte;

	return poll(&end, 1, 10000) == 1 && recv(control, &byte, 1, MSG_DONTWAIT) <= 0;
}

static const struct wire_message good_hello = { .kind = WIRE_HELLO, .version = WIRE_VERSION, .name = "hostile" };

/* ends: at each byte of a hello, and of a request */

static void die(void)
{
	kill(getpid(), SIGKILL);
}

static void die_in_hello(size_t at)
{
	send_bytes(connected(), &good_hello, at, NULL, 0);
	die();
}

static void die_in_request(size_t at)
{
	struct wire_request good = { .op = KERNEL_OP_CALL, .number = 1, .data_size = 6, .items = 2, .item = { 0, WIRE_RELEASE }, .data = "square" };
	struct raw raw;

	welcome(&raw);
	memcpy(&raw.area->slot[0].request, &good, at);
	atomic_store(&raw.area->slot[0].turn, WIRE_ASKED);
	atomic_fetch_or(&raw.area->asked[0], 1);
	ring(&raw);
	die();
}

static void each_dies(void (*die_at)(size_t), size_t size)
{
	size_t at;

	for (at = 0; at <= size; at++) {
		pid_t child = fork();

		if (child == 0)
			die_at(at);
		check(end_of(child) == -SIGKILL);
	}
}

static void dies(void)
{
	each_dies(die_in_hello, sizeof(good_hello));
	each_dies(die_in_request, offsetof(struct wire_request, data));
}

/* stops: by SIGSTOP, before and after what doord waits for */

static void stop_at(int step)
{
	struct raw raw;

	if (step < 2) {
		int control = connected();

		if (step == 1)
			send_message(control, &good_hello, NULL, 0);
		raise(SIGSTOP);
	}
	welcome(&raw);
	request_of(&raw, 0)->op = KERNEL_OP_RETURN;
	if (step > 2) {
		atomic_store(&raw.area->slot[0].turn, step == 3 ? WIRE_ASLEEP : WIRE_ASKED);
		atomic_fetch_or(&raw.area->asked[0], 1);
	}
	if (step > 3)
		ring(&raw);
	raise(SIGSTOP);
}

static void stops(void)
{
	enum { STEPS = 5 };
	pid_t child[STEPS];
	int i, status;

	for (i = 0; i < STEPS; i++) {
		child[i] = fork();
		if (child[i] == 0) {
			stop_at(i);
			_exit(0);
		}
		check(waitpid(child[i], &status, WUNTRACED) == child[i] && WIFSTOPPED(status));
	}
	touch("stopped");
	wait_for("served");
	for (i = 0; i < STEPS; i++) {
		kill(child[i], SIGKILL);
		check(end_of(child[i]) == -SIGKILL);
	}
}

/* a private door, which nobody serves: calls of it wait for good */
static uint32_t quiet_door(struct raw *raw)
{
	struct wire_request *request = request_of(raw, 1);

	request->op = KERNEL_OP_CREATE;
	request->a = KERNEL_ATTRIBUTE_PRIVATE;
	request->b = 1;
	check(asked(raw, 1, 5000) && raw->area->slot[1].reply.error == 0);
	return raw->area->slot[1].reply.a;
}

static void put_call(struct raw *raw, uint32_t door)
{
	struct wire_request *request = request_of(raw, 0);

	request->op = KERNEL_OP_CALL;
	request->a = door;
	asked(raw, 0, 0);
}

/* doord has looked at all that was asked before this was answered. */
static void pass_by(struct raw *raw)
{
	request_of(raw, 2)->op = KERNEL_OP_INFO;
	check(asked(raw, 2, 5000));
}

static int told_within(struct raw *raw, unsigned slot, int most)
{
	for (; most > 0 && atomic_load(&raw->area->slot[slot].turn) != WIRE_TOLD; most--)
		usleep(1000);
	return most > 0;
}

static void interrupt(struct raw *raw, uint32_t number)
{
	atomic_store(&raw->area->slot[0].interrupted, number);
	atomic_fetch_or(&raw->area->asked[0], 1);
	ring(raw);
}

/* A second request before the first is answered is none, and neither is its end. */
static void twice(void)
{
	struct raw raw;
	struct wire_slot *slot;
	uint32_t number;

	welcome(&raw);
	slot = &raw.area->slot[0];
	put_call(&raw, quiet_door(&raw));
	pass_by(&raw);
	number = slot->request.number;
	request_of(&raw, 0)->op = KERNEL_OP_DUPLICATE;
	asked(&raw, 0, 0);
	pass_by(&raw);
	check(atomic_load(&slot->turn) != WIRE_TOLD);
	interrupt(&raw, number + 1);
	pass_by(&raw);
	check(atomic_load(&slot->turn) != WIRE_TOLD);
	interrupt(&raw, number);
	check(told_within(&raw, 0, 5000) && slot->reply.number == number && slot->reply.error == EINTR);
}

static uint32_t error_of_items(struct raw *raw, uint32_t door, uint64_t first, uint64_t second)
{
	struct wire_request *request = request_of(raw, 3);

	request->op = KERNEL_OP_CALL;
	request->a = door;
	request->items = 2;
	request->item[0] = first;
	request->item[1] = second;
	check(asked(raw, 3, 5000));
	return raw->area->slot[3].reply.error;
}

/* One descriptor twice in a call, where it is released, and such as are none. */
static void doubles(void)
{
	struct raw raw;
	uint32_t door;

	welcome(&raw);
	door = quiet_door(&raw);
	check(error_of_items(&raw, door, door | WIRE_RELEASE, door | WIRE_RELEASE) == EINVAL);
	check(error_of_items(&raw, door, door, door | WIRE_RELEASE) == EINVAL);
	check(error_of_items(&raw, door, door, WIRE_NO_FD) == EINVAL);
	check(error_of_items(&raw, door, door, 17) == EINVAL);
	check(error_of_items(&raw, door, door | 5ull << WIRE_PIPE, door) == EINVAL);
	check(error_of_items(&raw, door, ~0ull, ~0ull) == EINVAL);
}

/* Interrupts without end, of calls that wait, and of what is no call. */
static void interrupts(void)
{
	struct raw raw;
	uint32_t door;
	int i;

	welcome(&raw);
	door = quiet_door(&raw);
	for (i = 0; i < INTERRUPTS; i++) {
		int k;

		put_call(&raw, door);
		for (k = 0; k < 3; k++)
			interrupt(&raw, raw.area->slot[0].request.number);
		check(told_within(&raw, 0, 5000) && raw.area->slot[0].reply.error == EINTR);
		for (k = 0; k < 50; k++)
			interrupt(&raw, (uint32_t)(i + k));
	}
	pass_by(&raw);
}

/* longer than it says, or with more than it says */

static void send_too_much(size_t more, int files)
{
	struct raw raw;
	char bytes[sizeof(struct wire_message) + 1] = { 0 };
	int i, file[MANY_FILES];
	struct wire_message message = { .kind = WIRE_FILES };

	welcome(&raw);
	memcpy(bytes, &message, sizeof(message));
	for (i = 0; i < MANY_FILES; i++)
		file[i] = i % 2 == 0 ? raw.control : STDERR_FILENO;
	check(send_bytes(raw.control, bytes, sizeof(message) + more, file, (size_t)files));
	check(is_cut_off(raw.control));
	close(raw.control);
	munmap(raw.area, sizeof(*raw.area));
	close(raw.memory);
	close(raw.bell);
}

static uint32_t error_of(struct raw *raw, uint32_t data_size, uint32_t items, uint32_t files, int file)
{
	struct wire_request *request = request_of(raw, 0);
	struct wire_message message = { .kind = WIRE_FILES, .a = 0, .b = request->number };
	uint32_t i;

	request->op = KERNEL_OP_CALL;
	request->data_size = data_size;
	request->items = items;
	request->files = files;
	for (i = 0; i < files && i < WIRE_ITEMS; i++)
		request->item[i] = WIRE_FILE;
	if (file != -1)
		send_message(raw->control, &message, &file, 1);
	check(asked(raw, 0, 5000));
	return raw->area->slot[0].reply.error;
}

static void longer(void)
{
	struct raw raw;

	send_too_much(1, 0);
	send_too_much(0, WIRE_ITEMS + 1);
	send_too_much(0, MANY_FILES);
	send_too_much(1, MANY_FILES);
	welcome(&raw);
	check(error_of(&raw, WIRE_DATA + 1, 0, 0, -1) == EINVAL);
	check(error_of(&raw, 0xffffffff, 0, 0, -1) == EINVAL);
	check(error_of(&raw, 0, WIRE_ITEMS + 1, 0, -1) == EINVAL);
	check(error_of(&raw, 0, 0xffffffff, 0, -1) == EINVAL);
	check(error_of(&raw, 0, 3, 0xffffffff, -1) == EINVAL);
	check(error_of(&raw, 0, 3, 3, -1) == EBADF);
	check(error_of(&raw, 0, 3, 3, STDERR_FILENO) == EBADF);
	check(error_of(&raw, 0, 1, 1, raw.control) == EBADF);
	check(error_of(&raw, 0, 0, 0, raw.control) == EBADF);
}

/* A socket whose last copy doord closes, with bytes on their way that nobody reads, and which is to wait for them. */
static int lingering_socket(void)
{
	static const struct linger long_enough = { 1, 20 };
	static const char bytes[65536];
	struct sockaddr_in address = { .sin_family = AF_INET, .sin_addr.s_addr = htonl(INADDR_LOOPBACK) };
	socklen_t size = sizeof(address);
	int listener = socket(AF_INET, SOCK_STREAM, 0), end = socket(AF_INET, SOCK_STREAM | SOCK_NONBLOCK, 0);

	check(bind(listener, (struct sockaddr *)&address, size) == 0 && listen(listener, 1) == 0);
	check(getsockname(listener, (struct sockaddr *)&address, &size) == 0);
	check(connect(end, (struct sockaddr *)&address, size) == 0 || errno == EINPROGRESS);
	check(accept(listener, NULL, NULL) != -1);
	while (send(end, bytes, sizeof(bytes), MSG_NOSIGNAL) > 0)
		continue;
	check(fcntl(end, F_SETFL, 0) == 0 && setsockopt(end, SOL_SOCKET, SO_LINGER, &long_enough, sizeof(long_enough)) == 0);
	return end;
}

static void lingers(void)
{
	struct raw raw;
	struct wire_message message = { .kind = WIRE_FILES };
	int i, end;

	welcome(&raw);
	for (i = 0; i < 3; i++) {
		end = lingering_socket();
		check(send_message(raw.control, &message, &end, 1));
		/* doord has it, and the one before has given way; our copy is not the last */
		pass_by(&raw);
		close(end);
	}
}

/* A fork of which it never says who the child is: it has a descriptor of the door of another, and so has the child. */
static void fork_and_die(void)
{
	struct raw raw;
	struct stat file;

	welcome(&raw);
	check(stat("w", &file) == 0);
	request_of(&raw, 0)->op = KERNEL_OP_OPEN;
	raw.area->slot[0].request.c = file.st_dev;
	raw.area->slot[0].request.d = file.st_ino;
	check(asked(&raw, 0, 5000) && raw.area->slot[0].reply.error == 0);
	request_of(&raw, 0)->op = KERNEL_OP_FORK;
	check(asked(&raw, 0, 5000) && raw.area->slot[0].reply.error == 0 && raw.area->slot[0].reply.a != 0);
	die();
}

static void forks(void)
{
	pid_t child = fork();

	if (child == 0)
		fork_and_die();
	check(end_of(child) == -SIGKILL);
}

/* exec(2) again and again, where the program before left its connection open: the next one is another program, and that one is over. */
static void execs(void)
{
	const char *left = getenv("EXECS");
	long more = left == NULL ? EXECS : strtol(left, NULL, 10);
	struct raw raw;
	char number[32];

	welcome(&raw);
	check(fcntl(raw.control, F_SETFD, 0) == 0 && fcntl(raw.bell, F_SETFD, 0) == 0 && fcntl(raw.memory, F_SETFD, 0) == 0);
	if (more == 0)
		return;
	/* a request that nobody waits for any more */
	request_of(&raw, 0)->op = KERNEL_OP_INFO;
	asked(&raw, 0, 0);
	snprintf(number, sizeof(number), "%ld", more - 1);
	setenv("EXECS", number, 1);
	execl("/proc/self/exe", "cutoffs", "execs", NULL);
	give_up("exec");
}

/* Good requests by all slots, for as long as doord answers: that is until the history has its last event. */
static void events(void)
{
	struct raw raw;
	struct pollfd end;
	unsigned i;

	welcome(&raw);
	end.fd = raw.control;
	end.events = 0;
	while (poll(&end, 1, 0) == 0) {
		for (i = 0; i < WIRE_SLOTS; i++) {
			struct wire_slot *slot = &raw.area->slot[i];

			if (atomic_load(&slot->turn) == WIRE_ASKED)
				continue;
			slot->request.op = KERNEL_OP_INFO;
			slot->request.number++;
			atomic_store(&slot->turn, WIRE_ASKED);
			atomic_fetch_or(&raw.area->asked[i / 64], 1ull << i % 64);
		}
		ring(&raw);
	}
}

/* So many connections that say nothing, as many of them at once as a process may have. */
static void knocks(void)
{
	static int control[KNOCKS];
	struct rlimit files;
	int i, kept;

	check(getrlimit(RLIMIT_NOFILE, &files) == 0);
	files.rlim_cur = files.rlim_max;
	check(setrlimit(RLIMIT_NOFILE, &files) == 0);
	kept = files.rlim_max > KNOCKS + 100 ? KNOCKS : (int)files.rlim_max - 100;
	for (i = 0; i < KNOCKS; i++) {
		if (i >= kept)
			close(control[i % kept]);
		control[i % kept] = connected();
	}
	/* the first made room for the others */
	check(kept < KNOCKS || is_cut_off(control[0]));
	touch("knocked");
	wait_for("served");
}

int main(int argc, char **argv)
{
	static const struct {
		const char *name;
		void (*run)(void);
	} ways[] = {
		{ "dies", dies }, { "stops", stops }, { "twice", twice }, { "interrupts", interrupts }, { "longer", longer }, { "knocks", knocks },
		{ "doubles", doubles }, { "lingers", lingers },
		{ "forks", forks }, { "events", events }, { "execs", execs },
	};
	size_t i;

	signal(SIGPIPE, SIG_IGN);
	for (i = 0; i < sizeof(ways) / sizeof(ways[0]); i++) {
		if (argc > 1 && strcmp(argv[1], ways[i].name) == 0)
			ways[i].run();
	}
	say("over");
	return 0;
}
