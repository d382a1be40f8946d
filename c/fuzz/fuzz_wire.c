/*
 * fuzz_wire.c: what doord reads of programs, for libFuzzer. An input is a number of steps, which up to three programs take: each connects, sends
 * messages, writes requests into its page, rings, closes what it has, and ends. Messages and requests are made of good ones and of changes.
 * In the end all programs are gone, and doord has what it had. FUZZ_HISTORY names a file for the history of the last input.
 *
 * The parts of doord whose static variables are set anew for each input are included, and not linked.
 */
#define main doord_main
#include "../src/doord.c"
#undef main
#include "../src/doord_kernel.c"
#include "../src/doord_requests.c"

#include <sys/eventfd.h>
#include <sys/mman.h>
#include <sys/prctl.h>
#include <sys/resource.h>
#include <sys/wait.h>

enum { PROGRAMS = 3, SLOTS = 4, STEPS = 400, FILES = 40, PATCHES = 6 };

int LLVMFuzzerInitialize(int *count, char ***words);
int LLVMFuzzerTestOneInput(const uint8_t *data, size_t size);

/* what stands for doord_options.c */

void complain(const char *form, ...)
{
	(void)form;
}

void fail(const char *form, ...)
{
	fprintf(stderr, "doord fails: %s\n", form);
	abort();
}

void read_options(int count, char **words, struct options *options)
{
	(void)count;
	(void)words;
	(void)options;
}

/* the input */

static struct {
	const uint8_t *data;
	size_t left;
	pid_t pid[PROGRAMS]; /* processes that do nothing, so that doord has pids */
	int control[PROGRAMS]; /* the ends of programs, or -1 */
	struct client *client[PROGRAMS]; /* doord's, as long as it is not gone */
	int pipe[2], folder;
	struct wire_table table;
} fuzz;

static uint32_t some(uint32_t below)
{
	if (fuzz.left == 0)
		return 0;
	fuzz.left--;
	return *fuzz.data++ % below;
}

static uint32_t some_word(void)
{
	switch (some(4)) {
	case 0:
		return some(256);
	case 1:
		return WIRE_NO_FD - some(3);
	case 2:
		return some(256) << 8 | some(256);
	default:
		return some(256) << 24 | some(256) << 16 | some(256) << 8 | some(256);
	}
}

/* Some bytes of it are others, now and then: what is always refused comes nowhere. */
static void patch(void *bytes, size_t size)
{
	for (uint32_t n = some(4) == 3 ? some(PATCHES) : 0; n > 0; n--) {
		size_t at = (some(256) << 8 | some(256)) % size;
		((uint8_t *)bytes)[at] = (uint8_t)some(256);
	}
}

static bool is_here(int program)
{
	for (const struct client *client = doord.clients; client; client = client->next)
		if (client == fuzz.client[program])
			return !client->is_gone;
	return false;
}

static struct wire_area *area_of(int program)
{
	return is_here(program) ? fuzz.client[program]->area : NULL;
}

/* steps of a program */

static void leave_connection(int program)
{
	if (fuzz.control[program] >= 0)
		close(fuzz.control[program]);
	fuzz.control[program] = -1;
}

/* As take_connection does. */
static void enter_connection(int program)
{
	const int unread = DOORD_UNREAD / 2;
	int ends[2];

	leave_connection(program);
	if (socketpair(AF_UNIX, SOCK_SEQPACKET | SOCK_CLOEXEC | SOCK_NONBLOCK, 0, ends) < 0)
		abort();
	(void)setsockopt(ends[1], SOL_SOCKET, SO_SNDBUF, &unread, sizeof unread);
	struct client *client = new_client(fuzz.pid[program], (int)syscall(SYS_pidfd_open, fuzz.pid[program], 0));
	if (!client)
		abort();
	doord.strangers++;
	client->control = ends[1];
	client->on_control = (struct watch){ WATCH_CONTROL, client, 0 };
	if (!watch(ends[1], &client->on_control, EPOLLIN))
		abort();
	fuzz.control[program] = ends[0];
	fuzz.client[program] = client;
}

static unsigned choose_files(int program, int *file)
{
	unsigned count = some(3) == 0 ? some(FILES) : some(3);

	for (unsigned i = 0; i < count; i++) {
		const int files[] = { fuzz.pipe[0], fuzz.pipe[1], fuzz.folder, fuzz.control[program] };
		file[i] = files[some(4)];
	}
	return count;
}

static void send_packet(int program, const void *bytes, size_t size, const int *file, unsigned files)
{
	struct iovec part = { (void *)(uintptr_t)bytes, size };
	union {
		struct cmsghdr header;
		char room[CMSG_SPACE(FILES * sizeof(int))];
	} rights;
	struct msghdr packet = { .msg_iov = &part, .msg_iovlen = 1 };

	memset(&rights, 0, sizeof rights);
	if (files > 0) {
		packet.msg_control = rights.room;
		packet.msg_controllen = CMSG_SPACE(files * sizeof(int));
		rights.header.cmsg_level = SOL_SOCKET;
		rights.header.cmsg_type = SCM_RIGHTS;
		rights.header.cmsg_len = CMSG_LEN(files * sizeof(int));
		memcpy(CMSG_DATA(&rights.header), file, files * sizeof(int));
	}
	(void)sendmsg(fuzz.control[program], &packet, MSG_NOSIGNAL | MSG_DONTWAIT);
}

static void send_some_message(int program, uint32_t kind)
{
	static const char *const names[] = { "a", "p2", "server", "\n1 x", "" };
	struct wire_message message[2] = { { .kind = kind, .version = WIRE_VERSION } };
	int file[FILES];

	memset(&message[1], 0, sizeof message[1]);
	message[0].a = kind == WIRE_FORKED ? some_word() : some(8);
	message[0].b = kind == WIRE_FORKED ? (uint32_t)fuzz.pid[some(PROGRAMS)] : some(8);
	message[0].token = kind == WIRE_HELLO && some(2) ? doord.place[some(8)].token : 0;
	strcpy(message[0].name, names[some(5)]);
	patch(&message[0], sizeof message[0]);
	size_t size = some(8) == 0 ? some(2 * sizeof message[0] - 1) : sizeof message[0];
	unsigned files = kind == WIRE_HELLO && some(4) ? 0 : choose_files(program, file);
	send_packet(program, message, size, file, files);
}

static void say_hello(int program)
{
	struct wire_message message = { .kind = WIRE_HELLO, .version = WIRE_VERSION, .name = "a" };

	send_packet(program, &message, sizeof message, NULL, 0);
}

/* A stand-in, or the files of the slot's next request, as they should be. */
static void send_good_message(int program, uint32_t kind, uint32_t slot, uint32_t number)
{
	struct wire_message message = { .kind = kind, .a = slot, .b = number };
	int file[2] = { fuzz.pipe[0], fuzz.folder };

	send_packet(program, &message, sizeof message, file + (kind == WIRE_FILES), 1);
}

static uint32_t some_op(void)
{
	static const uint32_t often[] = { KERNEL_OP_CALL, KERNEL_OP_CALL, KERNEL_OP_CALL, KERNEL_OP_CALL, KERNEL_OP_RETURN, KERNEL_OP_RETURN,
		KERNEL_OP_CREATE, KERNEL_OP_CREATE, KERNEL_OP_ATTACH, KERNEL_OP_OPEN, KERNEL_OP_FORK, WIRE_WAIT, WIRE_LEAVE };
	const uint32_t count = sizeof often / sizeof *often;
	uint32_t which = some(20);

	return which < count ? often[which] : which == count ? some_word() : 1 + some(70);
}

static void fill_request(int program, uint32_t index, struct wire_request *request)
{
	static const char *const texts[] = { "square", "/a/path", "p2", "\"\\\n", "" };
	const char *text = texts[some(5)];

	request->op = some_op();
	request->flags = some(8) == 7 ? WIRE_KEEPER : 0;
	request->a = some(8) == 7 ? some_word() : some(2);
	request->b = some(8) == 7 ? some_word() : some(4);
	request->c = request->op == KERNEL_OP_CREATE ? some_word() : 64;
	request->data_size = (uint32_t)strlen(text);
	memcpy(request->data, text, strlen(text));
	if (request->op == KERNEL_OP_OPEN || request->op == KERNEL_OP_DETACH || request->op == KERNEL_OP_AWAIT) {
		request->c = doord.path[some(2)].device;
		request->d = doord.path[some(2)].inode;
	}
	if (request->op == KERNEL_OP_ATTACH || (some(3) == 0 && request->op == KERNEL_OP_CALL)) {
		request->files = 1;
		request->items = request->op == KERNEL_OP_CALL;
		request->item[0] = WIRE_FILE;
		send_good_message(program, WIRE_FILES, index, request->number);
	} else if (some(3) == 0) {
		request->items = some(4);
		for (uint32_t i = 0; i < request->items; i++)
			request->item[i] = some(4) | (some(2) ? WIRE_RELEASE : 0);
	}
}

static void put_request(int program)
{
	struct wire_area *area = area_of(program);
	uint32_t index = some(8) == 0 ? some(WIRE_SLOTS) : some(SLOTS);

	if (!area)
		return;
	struct wire_slot *slot = &area->slot[index];
	uint32_t turn = atomic_load(&slot->turn), number = slot->request.number + 1;
	if ((turn == WIRE_ASKED || turn == WIRE_ASLEEP) && some(4) != 0)
		return;
	memset(&slot->request, 0, offsetof(struct wire_request, data));
	slot->request.number = number;
	fill_request(program, index, &slot->request);
	patch(&slot->request, offsetof(struct wire_request, data) + 8);
	atomic_store(&slot->turn, some(16) == 15 ? some(6) : WIRE_ASKED);
	atomic_fetch_or(&area->asked[index / 64], 1ull << index % 64);
	(void)eventfd_write(fuzz.client[program]->bell, 1);
}

static void interrupt_some(int program)
{
	struct wire_area *area = area_of(program);
	uint32_t index = some(SLOTS);

	if (!area)
		return;
	atomic_store(&area->slot[index].interrupted, area->slot[index].request.number + (some(4) == 0));
	atomic_fetch_or(&area->asked[0], 1ull << index);
	(void)eventfd_write(fuzz.client[program]->bell, 1);
}

/* What came by the control socket is read, and closed. */
static void read_messages(int program)
{
	union {
		struct cmsghdr header;
		char room[CMSG_SPACE(FILES * sizeof(int))];
	} rights;
	char bytes[256];

	for (;;) {
		struct iovec part = { bytes, sizeof bytes };
		struct msghdr packet = { .msg_iov = &part, .msg_iovlen = 1, .msg_control = rights.room, .msg_controllen = sizeof rights.room };
		if (recvmsg(fuzz.control[program], &packet, MSG_DONTWAIT | MSG_CMSG_CLOEXEC) <= 0)
			return;
		struct cmsghdr *header = CMSG_FIRSTHDR(&packet);
		size_t files = header ? (header->cmsg_len - CMSG_LEN(0)) / sizeof(int) : 0;
		for (size_t i = 0; i < files; i++) {
			int file;
			memcpy(&file, CMSG_DATA(header) + i * sizeof file, sizeof file);
			close(file);
		}
	}
}

/* A pipe of our own that goes away: the program closed what stood for its descriptor. */
static void lose_stand_in(int program)
{
	struct wire_message message = { .kind = WIRE_STAND_IN, .a = some(4) };
	int ends[2];

	if (pipe2(ends, O_CLOEXEC) < 0)
		abort();
	send_packet(program, &message, sizeof message, ends, 1);
	close(ends[0]);
	close(ends[1]);
}

/* Rounds of the loop, until nothing is there any more. */
static void go_round(void)
{
	struct epoll_event event[16];

	for (int round = 0; round < 20; round++) {
		int count = epoll_wait(doord.epoll, event, 16, 0);
		take_events(event, count > 0 ? count : 0);
		hand_over();
		free_gone();
		if (count <= 0)
			return;
	}
}

static void take_step(void)
{
	int program = (int)some(PROGRAMS);
	uint32_t step = some(16);

	if (fuzz.control[program] < 0 || !is_here(program)) {
		enter_connection(program);
		if (some(8) != 7)
			say_hello(program);
		go_round();
	}
	if (step < 7)
		put_request(program);
	else if (step == 15)
		interrupt_some(program);
	else if (step == 7 && some(8) == 7)
		send_some_message(program, WIRE_HELLO);
	else if (step == 8 && some(4) == 3)
		send_some_message(program, 1 + some(6));
	else if (step == 9)
		send_good_message(program, WIRE_STAND_IN, some(4), 0);
	else if (step == 10)
		lose_stand_in(program);
	else if (step == 11 && some(16) == 15)
		leave_connection(program);
	else if (step == 12)
		read_messages(program);
	if (step != 13)
		go_round();
}

/* one input, from a kernel that has just begun to one that has ended */

static void begin_kernel(void)
{
	int epoll = doord.epoll;

	memset(&doord, 0, sizeof doord);
	doord.epoll = epoll;
	doord.reserve = -1;
	doord.table = &fuzz.table;
	const char *kept = getenv("FUZZ_HISTORY");
	doord.options.history = kept ? kept : "/dev/null";
	doord.options.limit = some(2) ? 4 : DOORD_ROWS;
	doord.options.eagain = some(4) == 0;
	doord.options.shapes = 1;
	doord.options.shape[0] = (struct shape){ "*", 1 + some(4), some(3), some(3) };
	memset(&fuzz.table, 0, sizeof fuzz.table);
	memset(&history, 0, sizeof history);
	procedures = 0;
	lay_out_places();
	open_kernel();
}

static void end_kernel(void)
{
	for (int program = 0; program < PROGRAMS; program++)
		leave_connection(program);
	while (doord.clients)
		end_client(doord.clients);
	/* children that never came, of which no program is left that could say so */
	for (int i = 2; i <= doord.places; i++)
		if (doord.place[i].orphaned)
			end_place(i);
	hand_over();
	free_gone();
	for (unsigned i = 0; i < doord.paths; i++) {
		if (doord.path[i].door)
			close(doord.path[i].file);
		drop(doord.path[i].door);
		free(doord.path[i].text);
	}
	end_all();
	if (doord.strangers != 0 || doord.held_count != 0)
		abort();
	free(doord.held);
	free(doord.replied);
}

static int lowest_descriptor(void)
{
	int file = fcntl(fuzz.folder, F_DUPFD_CLOEXEC, 0);

	close(file);
	return file;
}

int LLVMFuzzerInitialize(int *count, char ***words)
{
	(void)count;
	(void)words;
	for (int i = 0; i < PROGRAMS; i++) {
		fuzz.control[i] = -1;
		fuzz.pid[i] = fork();
		if (fuzz.pid[i] == 0) {
			prctl(PR_SET_PDEATHSIG, SIGKILL);
			for (;;)
				pause();
		}
	}
	fuzz.folder = open(".", O_PATH | O_CLOEXEC);
	doord.epoll = epoll_create1(EPOLL_CLOEXEC);
	if (pipe2(fuzz.pipe, O_CLOEXEC | O_NONBLOCK) < 0 || fuzz.folder < 0 || doord.epoll < 0)
		abort();
	signal(SIGPIPE, SIG_IGN);
	return 0;
}

int LLVMFuzzerTestOneInput(const uint8_t *data, size_t size)
{
	int lowest = lowest_descriptor();

	fuzz.data = data;
	fuzz.left = size;
	begin_kernel();
	for (int step = 0; step < STEPS && fuzz.left > 0; step++)
		take_step();
	end_kernel();
	if (lowest_descriptor() != lowest)
		abort();
	return 0;
}
