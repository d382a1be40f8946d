/*
 * mutants SEED COUNT: so many messages, by a seed: each is a good one, of which a byte was changed, or that was cut at a byte, or made longer.
 * Byte after byte has its turn. Half of them go by the control socket, by one process, and half are requests in a page, by another. Who sends
 * a piece of a message, or more than one, is cut off; and comes again.
 */
#define _GNU_SOURCE 1
#include "raw.h"

#include <linux/futex.h>
#include <sys/syscall.h>
#include <time.h>

enum { FILES = 3, BUSY_SLOTS = 8, CALLERS = 4, LONGER = 300 };

static struct {
	unsigned long state;
	struct raw raw; /* a process has one connection: the second would end the first */
	int file[FILES];
	struct stat path;
	unsigned long cut_off, answered;
} own;

static unsigned long some(unsigned long below)
{
	return some_by(&own.state, below);
}

static void leave(struct raw *raw)
{
	close(raw->control);
	close(raw->bell);
	close(raw->memory);
	munmap(raw->area, sizeof(*raw->area));
}

/* messages of the control socket */

static struct wire_message good_message(uint32_t kind)
{
	struct wire_message message = { .kind = kind };

	switch (kind) {
	case WIRE_HELLO:
		message.version = WIRE_VERSION;
		strcpy(message.name, "mutants");
		break;
	case WIRE_STAND_IN:
		message.a = (uint32_t)some(4);
		break;
	case WIRE_FILES:
		message.a = (uint32_t)some(WIRE_SLOTS);
		message.b = (uint32_t)some(100);
		break;
	default:
		message.a = (uint32_t)some(1000);
		message.b = (uint32_t)getpid();
	}
	return message;
}

/* Whether doord has hung up. */
static int is_cut_off(int control)
{
	struct pollfd end = { control, POLLIN, 0 };
	char bytes[sizeof(struct wire_message)];

	while (poll(&end, 1, 10000) == 1) {
		if (recv(control, bytes, sizeof(bytes), MSG_DONTWAIT) <= 0 && errno != EAGAIN)
			return 1;
		errno = 0;
	}
	return 0;
}

/* What answers a hello that was changed is a refusal, a welcome, or the end. */
static void send_hello(const void *bytes, size_t size)
{
	int control = connected();
	struct pollfd answer = { control, POLLIN, 0 };

	send_bytes(control, bytes, size, NULL, 0);
	check(poll(&answer, 1, 10000) == 1);
	if (size != sizeof(struct wire_message))
		check(is_cut_off(control) && ++own.cut_off);
	close(control);
}

static void send_mutant(size_t at)
{
	static const uint32_t kinds[] = { WIRE_HELLO, WIRE_STAND_IN, WIRE_FILES, WIRE_FORKED };
	uint32_t kind = kinds[some(4)];
	union {
		struct wire_message message;
		unsigned char byte[sizeof(struct wire_message) + LONGER];
	} sent;
	size_t size = sizeof(sent.message), files = kind == WIRE_STAND_IN ? 1 : kind == WIRE_FILES ? some(FILES + 1) : 0;

	memset(&sent, 0, sizeof(sent));
	sent.message = good_message(kind);
	switch (some(3)) {
	case 0:
		size = at;
		break;
	case 1:
		sent.byte[at] ^= (unsigned char)(1 + some(255));
		break;
	default:
		size += at % 8 == 0 ? 1 + some(LONGER) : 0;
	}
	if (kind == WIRE_HELLO) {
		send_hello(&sent, size);
		return;
	}
	if (!send_bytes(own.raw.control, &sent, size, own.file, files) || size != sizeof(sent.message)) {
		if (size != sizeof(sent.message))
			check(is_cut_off(own.raw.control) && ++own.cut_off);
		leave(&own.raw);
		welcome(&own.raw);
	}
}

/* requests */

static void put_text(struct wire_request *request, const char *text)
{
	request->data_size = (uint32_t)strlen(text);
	memcpy(request->data, text, strlen(text));
}

/* Of the first slots none waits to serve, so that the program never comes to a stand where nobody is left who calls. */
static struct wire_request *good_request(unsigned index, uint32_t number)
{
	static const uint32_t ops[] = {
		KERNEL_OP_CREATE, KERNEL_OP_CREATE, KERNEL_OP_CREATE, KERNEL_OP_CALL, KERNEL_OP_CALL, KERNEL_OP_CALL, KERNEL_OP_CALL,
		KERNEL_OP_CALL, KERNEL_OP_CALL, KERNEL_OP_RETURN, KERNEL_OP_RETURN, KERNEL_OP_RETURN, KERNEL_OP_RETURN, KERNEL_OP_REVOKE,
		KERNEL_OP_BIND, KERNEL_OP_UNBIND, KERNEL_OP_INFO, KERNEL_OP_INFO_QUERY, KERNEL_OP_GET_PARAMETER,
		KERNEL_OP_SET_PARAMETER, KERNEL_OP_CREDENTIALS, KERNEL_OP_CLOSE, KERNEL_OP_DUPLICATE, KERNEL_OP_ATTACH,
		KERNEL_OP_DETACH, KERNEL_OP_OPEN, KERNEL_OP_AWAIT, KERNEL_OP_FORK, WIRE_LEAVE, WIRE_FORK_FAILED, WIRE_WAIT,
	};
	static struct wire_request request;

	memset(&request, 0, sizeof(request));
	request.op = ops[some(sizeof(ops) / sizeof(ops[0]))];
	if (index < CALLERS && request.op == KERNEL_OP_RETURN)
		request.op = KERNEL_OP_CALL;
	request.number = number;
	request.a = (uint32_t)some(4);
	request.c = 100;
	if (request.op == KERNEL_OP_CREATE) {
		request.a = (uint32_t)some(3) == 0 ? KERNEL_ATTRIBUTE_PRIVATE : 0;
		request.b = (uint32_t)some(1000);
		put_text(&request, "square");
	} else if (request.op == KERNEL_OP_CALL || request.op == KERNEL_OP_RETURN) {
		put_text(&request, "nine");
		request.items = (uint32_t)some(3);
		request.item[0] = some(4) | (some(2) == 0 ? WIRE_RELEASE : 0);
		request.item[1] = WIRE_FILE;
		request.files = request.items == 2;
	} else if (request.op == KERNEL_OP_ATTACH) {
		put_text(&request, "/mutant");
		request.files = 1;
	} else if (request.op == KERNEL_OP_DETACH || request.op == KERNEL_OP_OPEN || request.op == KERNEL_OP_AWAIT) {
		request.c = own.path.st_dev;
		request.d = own.path.st_ino;
	}
	return &request;
}

/* Whether the slot is the program's, after at most a millisecond; a call that waits is interrupted, now and then. */
static int is_told(struct wire_slot *slot)
{
	static const struct timespec soon = { 0, 1000000 };
	uint32_t seen = WIRE_ASKED;

	atomic_compare_exchange_strong(&slot->turn, &seen, WIRE_ASLEEP);
	if (seen == WIRE_ASKED || seen == WIRE_ASLEEP)
		syscall(SYS_futex, &slot->turn, FUTEX_WAIT, WIRE_ASLEEP, &soon, NULL, 0);
	seen = atomic_load(&slot->turn);
	return seen == WIRE_TOLD || seen == WIRE_MINE;
}

static void ask_mutant(size_t at)
{
	unsigned index = (unsigned)some(BUSY_SLOTS);
	struct wire_slot *slot = &own.raw.area->slot[index];
	struct wire_request *good = good_request(index, slot->request.number + 1);
	struct wire_message message = { .kind = WIRE_FILES, .a = index, .b = good->number };

	if (!is_told(slot)) {
		atomic_store(&slot->interrupted, slot->request.number);
		atomic_fetch_or(&own.raw.area->asked[0], 1ull << index);
		ring(&own.raw);
		return;
	}
	if (good->files > 0)
		send_message(own.raw.control, &message, own.file, good->files);
	if (some(2) == 0) {
		/* half of it: what comes after it is of the request before */
		memcpy(&slot->request, good, at);
	} else {
		memcpy(&slot->request, good, sizeof(*good));
		((unsigned char *)&slot->request)[at] ^= (unsigned char)(1 + some(255));
	}
	atomic_store(&slot->turn, WIRE_ASKED);
	atomic_fetch_or(&own.raw.area->asked[0], 1ull << index);
	ring(&own.raw);
	own.answered += is_told(slot) != 0;
}

static void send_mutants(unsigned long count)
{
	unsigned long i;

	welcome(&own.raw);
	for (i = 0; i < count; i++)
		send_mutant(i % sizeof(struct wire_message));
	check(own.cut_off > count / 4);
}

static void ask_mutants(unsigned long count)
{
	unsigned long i;

	welcome(&own.raw);
	for (i = 0; i < count; i++)
		ask_mutant(i % (offsetof(struct wire_request, data) + 8));
	check(own.answered > count / 4);
}

int main(int argc, char **argv)
{
	unsigned long count = argc > 2 ? strtoul(argv[2], NULL, 10) : 1000;
	int pipes[2];
	pid_t child;

	signal(SIGPIPE, SIG_IGN);
	own.state = argc > 1 ? strtoul(argv[1], NULL, 10) : 1;
	check(pipe2(pipes, O_CLOEXEC) == 0);
	own.file[0] = pipes[0];
	own.file[1] = pipes[1];
	own.file[2] = open(".", O_PATH | O_CLOEXEC);
	check(fstat(own.file[2], &own.path) == 0);
	child = fork();
	if (child == 0) {
		ask_mutants(count / 2);
		_exit(0);
	}
	send_mutants(count / 2);
	check(end_of(child) == 0);
	say("%lu messages", count);
	return 0;
}
