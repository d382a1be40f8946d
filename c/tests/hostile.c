/*
 * hostile ATTACK: a program that speaks to doord without the library, and not as it should. Whatever it does, doord goes on serving others.
 */
#define _GNU_SOURCE 1
#include "raw.h"

#include <limits.h>
#include <sys/syscall.h>

static unsigned long state = 12345;

static unsigned long some(unsigned long below)
{
	return some_by(&state, below);
}

/* connections and messages that are none */

static void connections(void)
{
	int i, control[50];
	static const char bytes[70000];
	const size_t sizes[] = { 1, 4, sizeof(struct wire_message) - 1, sizeof(struct wire_message) + 1, 5000, sizeof(bytes) };

	for (i = 0; i < 300; i++)
		close(connected());
	for (i = 0; i < 50; i++)
		control[i] = connected();
	for (i = 0; i < 6; i++)
		send_bytes(control[i], bytes, sizes[i], NULL, 0);
	send_bytes(control[6], bytes, 0, NULL, 0);
	for (i = 7; i < 20; i++) {
		struct wire_message message = { .kind = (uint32_t)some(0), .a = (uint32_t)some(0), .version = WIRE_VERSION };

		send_message(control[i], &message, NULL, 0);
	}
	usleep(20000);
	for (i = 0; i < 50; i++)
		close(control[i]);
}

static void hellos(void)
{
	struct raw raw;
	static const char *const names[] = { "", "init", "Bad Name\n1 init init exit = ok", "\x80\xff\x01", "../..", "p2", "t3", "server_k", "%s%n%d",
		"0123456789012345678901234567890123456789012345678901234567890123456789", "-", "*", "____________________", "2" };
	size_t i;
	uint32_t token;

	for (i = 0; i < sizeof(names) / sizeof(names[0]); i++) {
		check(hello(&raw, names[i], 0, WIRE_VERSION));
		close(raw.control);
		usleep(2000);
	}
	check(!hello(&raw, "version", 0, WIRE_VERSION + 1));
	for (token = 1; token < 70; token++) {
		if (hello(&raw, "token", token, WIRE_VERSION))
			close(raw.control);
	}
	check(!hello(&raw, "token", 0xffffffff, WIRE_VERSION) || close(raw.control) == 0);
	usleep(20000);
	/* twice over one connection */
	welcome(&raw);
	for (i = 0; i < 3; i++) {
		struct wire_message message = { .kind = WIRE_HELLO, .version = WIRE_VERSION, .name = "again" };

		send_message(raw.control, &message, NULL, 0);
	}
	usleep(20000);
}

static void messages(void)
{
	struct raw raw;
	int i, files[200], pipes[2];

	welcome(&raw);
	check(pipe(pipes) == 0);
	for (i = 0; i < 200; i++)
		files[i] = i % 5 == 0 ? raw.control : i % 5 == 1 ? raw.bell : i % 5 == 2 ? raw.memory : i % 5 == 3 ? pipes[0] : pipes[1];
	for (i = 0; i < 3000; i++) {
		struct wire_message message = { .kind = (uint32_t)(WIRE_STAND_IN + some(3)), .a = (uint32_t)some(300), .b = (uint32_t)some(4) };

		if (some(20) == 0)
			message.a = (uint32_t)some(0);
		if (!send_message(raw.control, &message, files + some(60), some(3) == 0 ? some(100) : some(3)))
			usleep(1000);
	}
}

/* Stand-ins for a descriptor that is there, which are no pipes, or are full, or are doord's own. */
static void stand_ins(void)
{
	struct raw raw;
	int i, files[8], pipes[2];

	welcome(&raw);
	request_of(&raw, 0)->op = KERNEL_OP_CREATE;
	check(asked(&raw, 0, 5000) && raw.area->slot[0].reply.error == 0);
	check(pipe(pipes) == 0 && write(pipes[1], "some", 4) == 4);
	files[0] = open("/dev/zero", O_RDWR);
	files[1] = open(".", O_RDONLY);
	files[2] = (int)syscall(SYS_openat, AT_FDCWD, "w", O_RDONLY); /* the library would connect, and be us */
	files[3] = raw.memory;
	files[4] = raw.bell;
	files[5] = raw.control;
	files[6] = pipes[0];
	files[7] = open(".", O_PATH);
	for (i = 0; i < 80; i++) {
		struct wire_message message = { .kind = WIRE_STAND_IN, .a = raw.area->slot[0].reply.a };

		send_message(raw.control, &message, files + i % 8, 1);
		usleep(500);
	}
	close(pipes[1]);
	usleep(20000);
}

/* requests that are none */

static void fill(struct wire_request *request)
{
	uint32_t i;

	request->op = (uint32_t)some(some(10) == 0 ? 0 : 70);
	request->flags = (uint32_t)some(4);
	request->a = (uint32_t)some(some(3) == 0 ? 0 : 6);
	request->b = (uint32_t)some(some(3) == 0 ? 0 : 6);
	request->c = some(some(2) == 0 ? 0 : 100);
	request->d = some(some(2) == 0 ? 0 : 100);
	request->data_size = (uint32_t)some(some(5) == 0 ? 0 : WIRE_DATA + 10);
	request->items = (uint32_t)some(some(5) == 0 ? 0 : WIRE_ITEMS + 3);
	request->files = (uint32_t)some(some(2) == 0 ? 3 : WIRE_ITEMS + 3);
	for (i = 0; i < WIRE_ITEMS; i++)
		request->item[i] = some(some(4) == 0 ? 0 : 6) | (some(3) == 0 ? WIRE_RELEASE : 0) | (some(6) == 0 ? WIRE_FILE : 0);
	for (i = 0; i < WIRE_DATA; i++)
		request->data[i] = (uint8_t)some(256);
}

static void requests(void)
{
	struct raw raw;
	int i;

	welcome(&raw);
	for (i = 0; i < 2500; i++) {
		unsigned slot = (unsigned)some(WIRE_SLOTS);
		struct wire_request *request;

		if (atomic_load(&raw.area->slot[slot].turn) != WIRE_MINE && atomic_load(&raw.area->slot[slot].turn) != WIRE_TOLD)
			continue;
		request = request_of(&raw, slot);
		fill(request);
		asked(&raw, slot, some(10) == 0 ? 20 : 3);
		if (some(20) == 0)
			atomic_store(&raw.area->slot[slot].interrupted, request->number);
		if (some(300) == 0) {
			close(raw.control);
			close(raw.bell);
			close(raw.memory);
			munmap(raw.area, sizeof(*raw.area));
			usleep(5000);
			if (!hello(&raw, "hostile", 0, WIRE_VERSION))
				return;
		}
	}
}

/* texts that end the line, or are none */
static void texts(void)
{
	struct raw raw;
	static const char *const texts[] = { "", "\n1 init init exit = ok\n", "name\n", "a b", "\"", "/x\ny", "relative", "/\\x", "init", "proc1", "\xff" };
	size_t i;
	int file = open(".", O_PATH);

	welcome(&raw);
	for (i = 0; i < 2 * sizeof(texts) / sizeof(texts[0]); i++) {
		const char *text = texts[i / 2];
		struct wire_request *request = request_of(&raw, 0);
		struct wire_message message = { .kind = WIRE_FILES, .a = 0, .b = request->number };

		request->op = i % 2 == 0 ? KERNEL_OP_CREATE : KERNEL_OP_ATTACH;
		request->b = (uint32_t)(i / 2 + 1);
		request->data_size = (uint32_t)strlen(text);
		memcpy(request->data, text, strlen(text));
		if (i % 2 == 1) {
			request->b = 0;
			request->files = 1;
			send_message(raw.control, &message, &file, 1);
		}
		asked(&raw, 0, 1000);
	}
	/* as long as can be */
	for (i = 0; i < 3; i++) {
		struct wire_request *request = request_of(&raw, 0);

		request->op = KERNEL_OP_AWAIT;
		request->data_size = i == 0 ? 4097 : WIRE_DATA;
		memset(request->data, i == 1 ? '/' : 1, WIRE_DATA);
		asked(&raw, 0, 50);
	}
}

static void *rewrite(void *area)
{
	struct wire_area *shared = area;
	unsigned long i;

	for (i = 0; i < 40000000ul; i++) {
		struct wire_request *request = &shared->slot[0].request;

		*(volatile uint32_t *)&request->data_size = i % 3 == 0 ? 8 : i % 3 == 1 ? WIRE_DATA : 0xffffffff;
		*(volatile uint32_t *)&request->items = i % 2 == 0 ? 1 : 0x10000000;
		*(volatile uint32_t *)&request->files = i % 2 == 0 ? 0 : 0x7fffffff;
		*(volatile uint32_t *)&request->op = i % 4 == 0 ? KERNEL_OP_CALL : i % 4 == 1 ? KERNEL_OP_DUPLICATE : i % 4 == 2 ? KERNEL_OP_RETURN : 200;
	}
	return NULL;
}

/* A request that changes while it is read, in a slot whose word changes too. */
static void changes(void)
{
	struct raw raw;
	int i;

	welcome(&raw);
	pthread_detach(thread_of(rewrite, raw.area));
	for (i = 0; i < 3000; i++) {
		atomic_store(&raw.area->slot[0].turn, (uint32_t)some(6));
		atomic_store(&raw.area->slot[0].interrupted, (uint32_t)some(3));
		atomic_fetch_or(&raw.area->asked[some(WIRE_SLOT_WORDS)], some(0));
		ring(&raw);
		if (i % 50 == 0)
			usleep(500);
	}
}

/* what is shared with doord, taken away under it */

static void shrinks(void)
{
	struct raw raw;

	welcome(&raw);
	fails(ftruncate(raw.memory, 4096), EPERM);
	fails(fcntl(raw.memory, F_ADD_SEALS, F_SEAL_WRITE), EPERM);
	/* a hole is filled with zeroes where doord looks into it */
	check(fallocate(raw.memory, FALLOC_FL_PUNCH_HOLE | FALLOC_FL_KEEP_SIZE, 0, (off_t)sizeof(*raw.area)) == 0);
	request_of(&raw, 100)->op = KERNEL_OP_DUPLICATE;
	check(asked(&raw, 100, 5000));
	if (ftruncate(raw.memory, 4096) == 0) {
		/* our own page of the slot is gone, too; that of the bits is there */
		atomic_fetch_or(&raw.area->asked[1], 1ull << 36);
		ring(&raw);
		usleep(50000);
	}
}

/* The bell is shared: its flags are, too. doord must not wait in a read of it. */
static void bells(void)
{
	struct raw raw;
	uint64_t value = ULLONG_MAX - 1;
	int i;

	welcome(&raw);
	check(fcntl(raw.bell, F_SETFL, fcntl(raw.bell, F_GETFL) & ~O_NONBLOCK) == 0);
	for (i = 0; i < 2000; i++) {
		struct pollfd rung = { raw.bell, POLLIN, 0 };

		ring(&raw);
		if (poll(&rung, 1, 0) == 1 && read(raw.bell, &value, sizeof(value)) != sizeof(value))
			break;
	}
	check(fcntl(raw.bell, F_SETFL, fcntl(raw.bell, F_GETFL) | O_NONBLOCK) == 0);
	value = ULLONG_MAX - 1;
	check(write(raw.bell, &value, sizeof(value)) == sizeof(value) || errno == EAGAIN);
	request_of(&raw, 0)->op = KERNEL_OP_DUPLICATE;
	asked(&raw, 0, 20);
}

/* All slots at once wait for a path that nobody attaches, and the program is gone. */
static void slots(void)
{
	struct raw raw;
	unsigned i;

	welcome(&raw);
	for (i = 0; i < WIRE_SLOTS; i++) {
		struct wire_request *request = request_of(&raw, i);

		request->op = i % 2 == 0 ? KERNEL_OP_AWAIT : KERNEL_OP_RETURN;
		memcpy(request->data, "/never", 6);
		request->data_size = i % 2 == 0 ? 6 : 0;
		asked(&raw, i, 1);
	}
	usleep(20000);
	kill(getpid(), SIGKILL);
}

/* Files that no request speaks of, more than anybody should keep. */
static void floods(void)
{
	struct raw raw;
	int i, files[32];

	welcome(&raw);
	for (i = 0; i < 32; i++)
		files[i] = open("/dev/null", O_RDWR | O_CLOEXEC);
	for (i = 0; i < 4000; i++) {
		struct wire_message message = { .kind = WIRE_FILES, .a = (uint32_t)(i % 200), .b = (uint32_t)i };

		if (!send_message(raw.control, &message, files, 32))
			usleep(2000);
	}
	/* others are served while this goes on */
	touch("flooded");
	wait_for("served");
}

/* Files come with results, again and again, and nobody takes them. */
static void greedy(void)
{
	struct raw raw;
	struct stat file;
	int i, answered = 0;
	uint32_t door;

	welcome(&raw);
	check(stat("fs", &file) == 0);
	request_of(&raw, 0)->op = KERNEL_OP_OPEN;
	raw.area->slot[0].request.c = file.st_dev;
	raw.area->slot[0].request.d = file.st_ino;
	check(asked(&raw, 0, 5000));
	door = raw.area->slot[0].reply.a;
	for (i = 0; i < 1500; i++) {
		struct wire_request *request = request_of(&raw, 0);

		request->op = KERNEL_OP_CALL;
		request->a = door;
		request->data[0] = 'a';
		request->data_size = 1;
		request->c = 100;
		if (!asked(&raw, 0, 5000))
			break;
		answered++;
	}
	/* those of all threads have room, and whoever takes none is cut off */
	check(answered >= WIRE_SLOTS && answered < 1500);
	touch("greedy");
	wait_for("served");
}

/* The table of paths, which is there to be read. */
static void tables(void)
{
	const char *path = getenv(WIRE_TABLE);
	int file = path == NULL ? -1 : open(path, O_RDWR | O_CLOEXEC);
	struct wire_table *table = file == -1 ? MAP_FAILED : mmap(NULL, sizeof(*table), PROT_READ | PROT_WRITE, MAP_SHARED, file, 0);

	if (table == MAP_FAILED)
		return;
	atomic_store(&table->count, 0xfffffff0);
	usleep(1000);
}

int main(int argc, char **argv)
{
	static const struct {
		const char *name;
		void (*run)(void);
	} attacks[] = {
		{ "connections", connections }, { "hellos", hellos }, { "messages", messages }, { "stand_ins", stand_ins }, { "requests", requests }, { "texts", texts },
		{ "changes", changes }, { "shrinks", shrinks }, { "bells", bells }, { "slots", slots }, { "floods", floods }, { "tables", tables }, { "greedy", greedy },
	};
	size_t i;

	signal(SIGPIPE, SIG_IGN);
	state += argc > 2 ? strtoul(argv[2], NULL, 10) : 0;
	for (i = 0; i < sizeof(attacks) / sizeof(attacks[0]); i++) {
		if (argc > 1 && strcmp(argv[1], attacks[i].name) == 0)
			attacks[i].run();
	}
	return 0;
}
