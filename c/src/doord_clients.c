/* doord_clients.c: programs that come and go. */
#include "doord.h"

#include <errno.h>
#include <fcntl.h>
#include <poll.h>
#include <stdlib.h>
#include <string.h>
#include <sys/epoll.h>
#include <sys/eventfd.h>
#include <sys/mman.h>
#include <sys/socket.h>
#include <sys/stat.h>
#include <sys/syscall.h>
#include <unistd.h>

/* A client by its pid, whose end is seen by a pidfd, which is the client's from here; NULL where the process is not there. */
struct client *new_client(pid_t pid, int death)
{
	if (death < 0)
		return NULL;
	struct client *client = calloc(1, sizeof *client);
	if (!client)
		fail("there is no memory");
	client->pid = pid;
	client->control = client->bell = -1;
	client->death = death;
	client->on_death = (struct watch){ WATCH_DEATH, client, 0 };
	if (!watch(death, &client->on_death, EPOLLIN)) {
		close(death);
		free(client);
		return NULL;
	}
	client->next = doord.clients;
	doord.clients = client;
	return client;
}

/* messages with descriptors */

static bool send_message(int socket, const struct wire_message *message, const int *file, unsigned files)
{
	struct iovec bytes = { (void *)(uintptr_t)message, sizeof *message };
	union {
		struct cmsghdr header;
		char room[CMSG_SPACE(WIRE_ITEMS * sizeof(int))];
	} control;
	struct msghdr packet = { .msg_iov = &bytes, .msg_iovlen = 1 };

	memset(&control, 0, sizeof control);
	if (files > 0) {
		packet.msg_control = control.room;
		packet.msg_controllen = CMSG_SPACE(files * sizeof(int));
		struct cmsghdr *header = CMSG_FIRSTHDR(&packet);
		header->cmsg_level = SOL_SOCKET;
		header->cmsg_type = SCM_RIGHTS;
		header->cmsg_len = CMSG_LEN(files * sizeof(int));
		memcpy(CMSG_DATA(header), file, files * sizeof(int));
	}
	return sendmsg(socket, &packet, MSG_NOSIGNAL | MSG_DONTWAIT) == (ssize_t)sizeof *message;
}

/*
 * A message and its descriptors. -1: there is none now; 0: the other end is gone, or does not speak so. Where `is_short` doord had no room
 * for all of its descriptors, so that there are fewer.
 */
static int receive_message(int socket, struct wire_message *message, int *file, unsigned *files, bool *is_short)
{
	struct iovec bytes = { message, sizeof *message };
	union {
		struct cmsghdr header;
		char room[CMSG_SPACE(WIRE_ITEMS * sizeof(int))];
	} control;
	struct msghdr packet = { .msg_iov = &bytes, .msg_iovlen = 1, .msg_control = control.room, .msg_controllen = sizeof control.room };

	*files = 0;
	ssize_t n = recvmsg(socket, &packet, MSG_DONTWAIT | MSG_CMSG_CLOEXEC);
	if (n < 0)
		return errno == EAGAIN || errno == EINTR ? -1 : 0;
	for (struct cmsghdr *header = CMSG_FIRSTHDR(&packet); header; header = CMSG_NXTHDR(&packet, header))
		if (header->cmsg_level == SOL_SOCKET && header->cmsg_type == SCM_RIGHTS && *files == 0) {
			*files = (unsigned)((header->cmsg_len - CMSG_LEN(0)) / sizeof(int));
			memcpy(file, CMSG_DATA(header), *files * sizeof(int));
		}
	*is_short = (packet.msg_flags & MSG_CTRUNC) && *files < WIRE_ITEMS;
	/* longer than a message, or with more descriptors than one may have */
	bool is_odd = (packet.msg_flags & MSG_TRUNC) || ((packet.msg_flags & MSG_CTRUNC) && !*is_short);
	return n == (ssize_t)sizeof *message && !is_odd;
}

/*
 * Files that go with a reply; doord keeps none of them. There is room for those of all threads: a program that reads none of them is cut off,
 * since files on their way are counted against all programs of the user.
 */
void send_files(struct slot *slot)
{
	struct wire_message message = { .kind = WIRE_FILES, .a = slot->index, .b = slot->request.number };
	struct client *client = slot->client;
	int error = send_message(client->control, &message, slot->file, slot->files) ? 0 : errno;

	/* a program that has died meanwhile wants none */
	if (error != 0 && error != EPIPE && error != ECONNRESET && !client->is_lost_told)
		complain("%s: descriptors of files could not be handed over: %s", doord.place[client->place].name, strerror(error));
	client->is_lost_told = client->is_lost_told || error != 0;
	close_files(slot->file, slot->files);
	slot->files = 0;
	if (error == EAGAIN)
		end_client(client);
}

/* files that came for a request */

static void drop_parcel(struct client *client, unsigned slot)
{
	struct parcel **at = &client->parcel[slot];

	client->files_kept -= (*at)->count;
	free(*at);
	*at = NULL;
}

/* One for each slot: those of a request that never came give way. */
static void keep_parcel(struct client *client, const struct wire_message *message, const int *file, unsigned files, bool is_short)
{
	if (message->a >= WIRE_SLOTS) {
		close_files(file, files);
		return;
	}
	struct parcel **at = &client->parcel[message->a];
	if (*at) {
		close_files((*at)->file, (*at)->count);
		drop_parcel(client, message->a);
	}
	if (client->files_kept + files > client->most_files) {
		close_files(file, files);
		return;
	}
	client->files_kept += files;
	*at = calloc(1, sizeof **at);
	if (!*at)
		fail("there is no memory");
	(*at)->number = message->b;
	(*at)->count = files;
	(*at)->is_short = is_short;
	memcpy((*at)->file, file, files * sizeof *file);
}

/* The files of the slot's request: 0 where as many came as it has, else an error. */
int take_parcel(struct slot *slot, int *file, unsigned count)
{
	struct parcel **at = &slot->client->parcel[slot->index];

	if (!*at)
		return count == 0 ? 0 : EBADF;
	bool is_its = (*at)->number == slot->request.number, fits = is_its && (*at)->count == count;
	int error = fits || count == 0 ? 0 : is_its && (*at)->is_short ? ENFILE : EBADF;
	if (fits)
		memcpy(file, (*at)->file, count * sizeof *file);
	else
		close_files((*at)->file, (*at)->count);
	drop_parcel(slot->client, slot->index);
	return error;
}

/* stand-ins */

/* As long as one is on its way, messages are read before requests that may speak of its descriptor. */
void expect_stand_in(struct client *client, uint64_t row)
{
	if (row < DOORD_ROWS && !client->stand_in[row].is_expected) {
		client->stand_in[row].is_expected = true;
		client->expected++;
	}
}

void close_stand_in(struct client *client, unsigned row)
{
	if (!client->stand_in)
		return;
	struct stand_in *stand_in = &client->stand_in[row];
	if (stand_in->is_expected)
		client->expected--;
	stand_in->is_expected = stand_in->is_missed = false;
	if (stand_in->end < 0)
		return;
	unwatch(stand_in->end);
	close(stand_in->end);
	stand_in->end = -1;
}

/* Of a pipe its number; of no other file is anything asked that its program could keep from coming to an end. */
static bool is_pipe(int file, uint32_t *number)
{
	struct statx found;

	if (statx(file, "", AT_EMPTY_PATH | AT_STATX_DONT_SYNC, STATX_TYPE | STATX_INO, &found) != 0 || !S_ISFIFO(found.stx_mode)) return false;
	*number = (uint32_t)found.stx_ino;
	return true;
}

static void take_stand_in(struct client *client, uint32_t row, uint32_t before, int end)
{
	uint32_t number;
	bool is_there = row < DOORD_ROWS && client->stand_in && doord.place[client->place].row[row];

	if (!is_there || !is_inherited(client, row, before)) {
		close_file(end);
		return;
	}
	close_stand_in(client, row);
	client->stand_in[row].watch = (struct watch){ WATCH_STAND_IN, client, row };
	if (is_pipe(end, &number) && watch(end, &client->stand_in[row].watch, 0)) {
		client->stand_in[row].end = end;
		client->stand_in[row].pipe = number;
		pipe_came(client->place, row, number);
		return;
	}
	/* a thread of the program closed what was not its own, perhaps */
	if (!client->is_odd_told)
		complain("%s: what stands in for descriptor %u is none that can be watched", doord.place[client->place].name, (unsigned)row);
	client->is_odd_told = true;
	close_file(end);
}

/* doord has no descriptor for it: the program's is believed, and where it is closed without a word nobody sees it. */
static void miss_stand_in(struct client *client, uint32_t row)
{
	if (row >= DOORD_ROWS || !doord.place[client->place].row[row])
		return;
	close_stand_in(client, row);
	client->stand_in[row].is_missed = true;
	if (!client->is_odd_told)
		complain("%s: doord has no descriptor left for what stands in for descriptor %u", doord.place[client->place].name, (unsigned)row);
	client->is_odd_told = true;
}

/* Whether this pipe stands for the descriptor, as far as the bits of its number say that are there. */
bool stands_for(const struct client *client, uint32_t row, uint32_t pipe, uint32_t bits)
{
	const struct stand_in *stand_in = row < DOORD_ROWS ? &client->stand_in[row] : NULL;

	return pipe == 0 || (stand_in && (stand_in->is_missed || (stand_in->end >= 0 && (stand_in->pipe & bits) == pipe)));
}

/* The program's end was closed without a word, as by exec(2): the keeper closes the descriptor. */
void stand_in_gone(struct client *client, unsigned row)
{
	struct pollfd end = { .fd = client->stand_in[row].end };

	if (end.fd < 0 || poll(&end, 1, 0) <= 0)
		return;
	close_stand_in(client, row);
	close_row(doord.place[client->place].keeper, row);
	settle();
}

/* hello */

static bool make_room(struct client *client)
{
	client->stand_in = calloc(DOORD_ROWS, sizeof *client->stand_in);
	client->slot = calloc(WIRE_SLOTS, sizeof *client->slot);
	client->parcel = calloc(WIRE_SLOTS, sizeof *client->parcel);
	if (!client->stand_in || !client->slot || !client->parcel)
		return false;
	client->most_files = most_files_kept();
	for (unsigned i = 0; i < DOORD_ROWS; i++)
		client->stand_in[i].end = -1;
	for (unsigned i = 0; i < WIRE_SLOTS; i++) {
		client->slot[i].client = client;
		client->slot[i].index = i;
	}
	return true;
}

/* The memory that the program shares with doord. It cannot be made smaller under its hands. */
static bool make_area(struct client *client, int *area)
{
	*area = memfd_create("doord", MFD_CLOEXEC | MFD_ALLOW_SEALING);
	if (*area < 0 || ftruncate(*area, sizeof *client->area) < 0 || fcntl(*area, F_ADD_SEALS, F_SEAL_SHRINK | F_SEAL_GROW | F_SEAL_SEAL) < 0)
		return false;
	client->area = mmap(NULL, sizeof *client->area, PROT_READ | PROT_WRITE, MAP_SHARED, *area, 0);
	if (client->area == MAP_FAILED) {
		client->area = NULL;
		return false;
	}
	client->bell = eventfd(0, EFD_CLOEXEC | EFD_NONBLOCK);
	client->on_bell = (struct watch){ WATCH_BELL, client, 0 };
	return client->bell >= 0 && watch(client->bell, &client->on_bell, EPOLLIN | EPOLLET);
}

/* The place of a program: the child that its fork began, or one that nobody has. */
static int place_for(struct client *client, uint32_t token, const char *program)
{
	int child = place_of_token(token);
	struct client *stub = child ? doord.place[child].client : NULL;

	if (stub && stub->control < 0 && stub->pid == client->pid) {
		/* announced by its parent: that stub is this client */
		stub->place = 0;
		end_client(stub);
		doord.place[child].client = stub = NULL;
	}
	if (child && !stub) {
		doord.place[child].token = 0;
		return child;
	}
	int place = find_place(program);
	return place && begin_place(place, program) ? place : 0;
}

static void refuse_hello(struct client *client, int error)
{
	struct wire_message answer = { .kind = WIRE_WELCOME, .error = (uint32_t)error, .version = WIRE_VERSION };

	write_history();
	send_message(client->control, &answer, NULL, 0);
	end_client(client);
}

static void welcome(struct client *client, const struct wire_message *hello)
{
	struct wire_message message = { .kind = WIRE_WELCOME, .version = WIRE_VERSION };
	int file[2] = { -1, -1 };
	char program[WIRE_NAME];

	memcpy(program, hello->name, sizeof program);
	program[sizeof program - 1] = 0;
	if (!make_room(client) || !make_area(client, &file[0])) {
		if (file[0] >= 0)
			close(file[0]);
		refuse_hello(client, ENOMEM);
		return;
	}
	int place = place_for(client, hello->token, program);
	if (place == 0) {
		close(file[0]);
		no_place(program);
		refuse_hello(client, EAGAIN);
		return;
	}
	doord.strangers--;
	client->place = place;
	doord.place[place].client = client;
	client->ruid = (uid_t)hello->ruid;
	client->rgid = (gid_t)hello->rgid;
	remark("pid %d, %s, is %s", (int)client->pid, program, doord.place[place].name);
	see_places_left();
	for (unsigned row = 0; row < DOORD_ROWS; row++)
		if (doord.place[place].row[row])
			expect_stand_in(client, row); /* a forked child makes its own */
	file[1] = client->bell;
	message.a = doord.options.takes_long ? WIRE_LONG : 0;
	write_history();
	if (!send_message(client->control, &message, file, 2))
		end_client(client);
	close(file[0]);
}

static void take_hello(struct client *client, const struct wire_message *hello)
{
	if (client->place != 0 || hello->version != WIRE_VERSION) {
		refuse_hello(client, EPROTO);
		return;
	}
	/* one who comes again is another program, after exec(2) */
	for (struct client *other = doord.clients; other; other = other->next)
		if (other != client && other->pid == client->pid && other->place != 0 && other->control >= 0) {
			end_client(other);
			break;
		}
	welcome(client, hello);
}

/* messages */

/* Who has not said hello says nothing else, and libdoor says nothing but these. */
static bool is_in_place(const struct client *client, uint32_t kind)
{
	return kind == WIRE_HELLO || (client->place != 0 && (kind == WIRE_STAND_IN || kind == WIRE_FILES || kind == WIRE_FORKED || kind == WIRE_RENEWED));
}

static void take_message(struct client *client, const struct wire_message *message, const int *file, unsigned files, bool is_short)
{
	if (!is_in_place(client, message->kind)) {
		close_files(file, files);
		end_client(client);
		return;
	}
	switch (message->kind) {
	case WIRE_HELLO:
		close_files(file, files);
		take_hello(client, message);
		break;
	case WIRE_STAND_IN:
		if (files == 1)
			take_stand_in(client, message->a, message->b, file[0]);
		else if (is_short)
			miss_stand_in(client, message->a);
		else
			close_files(file, files);
		break;
	case WIRE_FILES:
		keep_parcel(client, message, file, files, is_short);
		break;
	case WIRE_FORKED:
		close_files(file, files);
		forked(client, message->a, (pid_t)message->b);
		break;
	case WIRE_RENEWED:
		close_files(file, files);
		renewed(client);
		break;
	}
}

static void take_so_many(struct client *client, unsigned most)
{
	struct wire_message message;
	int file[WIRE_ITEMS];
	unsigned files;
	bool is_short;

	for (unsigned count = 0; count < most && !client->is_gone; count++) {
		int got = receive_message(client->control, &message, file, &files, &is_short);
		if (got < 0)
			return;
		if (got == 0) {
			close_files(file, files);
			end_client(client);
			return;
		}
		take_message(client, &message, file, files, is_short);
	}
}

/* All that a request may speak of. */
void take_messages(struct client *client)
{
	take_so_many(client, DOORD_MESSAGES);
}

/* What there is, as far as others need not wait for it long. */
void take_some_messages(struct client *client)
{
	take_so_many(client, DOORD_MESSAGES_AT_ONCE);
}

/* going */

static void close_watched(int *fd)
{
	if (*fd < 0)
		return;
	unwatch(*fd);
	close(*fd);
	*fd = -1;
}

static void unlink_client(struct client *client)
{
	struct client **at = &doord.clients;

	while (*at != client)
		at = &(*at)->next;
	*at = client->next;
	client->next = doord.gone;
	doord.gone = client;
}

/* What a program has open here, and files that were on their way. */
static void close_room(struct client *client)
{
	for (unsigned i = 0; client->stand_in && i < DOORD_ROWS; i++)
		close_stand_in(client, i);
	for (unsigned i = 0; client->slot && client->parcel && i < WIRE_SLOTS; i++) {
		struct slot *slot = &client->slot[i];
		if (slot->is_held)
			let_go(slot);
		close_files(slot->file, slot->files);
		slot->files = 0;
		slot->is_busy = false;
		if (client->parcel[i]) {
			close_files(client->parcel[i]->file, client->parcel[i]->count);
			drop_parcel(client, i);
		}
	}
}

/* A program has ended, or is another now. Its memory stays until the loop comes round, since events may still name it. */
void end_client(struct client *client)
{
	if (client->is_gone)
		return;
	client->is_gone = true;
	if (client->place == 0 && client->control >= 0)
		doord.strangers--;
	close_watched(&client->control);
	close_watched(&client->bell);
	close_watched(&client->death);
	close_room(client);
	unlink_client(client);
	if (client->place) {
		remark("pid %d of %s has ended", (int)client->pid, doord.place[client->place].name);
		end_place(client->place);
	}
}

void free_gone(void)
{
	while (doord.gone) {
		struct client *client = doord.gone;
		doord.gone = client->next;
		if (client->area)
			munmap(client->area, sizeof *client->area);
		free(client->stand_in);
		free(client->slot);
		free(client->parcel);
		free(client);
	}
}
