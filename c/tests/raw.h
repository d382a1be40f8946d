/* raw.h: for programs that speak to doord without the library: a connection, messages, and requests as bytes. */
#ifndef RAW_H
#define RAW_H

#include "../src/kernel_c.h"
#include "../src/wire.h"
#include "test.h"

#include <poll.h>
#include <sys/mman.h>
#include <sys/socket.h>
#include <sys/un.h>

/* A connection of our own. */
struct raw {
	int control, memory, bell;
	struct wire_area *area;
};

/* Numbers by a seed. */
static inline unsigned long some_by(unsigned long *state, unsigned long below)
{
	*state = *state * 6364136223846793005ul + 1442695040888963407ul;
	return below == 0 ? *state >> 1 : (*state >> 20) % below;
}

static inline int connected(void)
{
	struct sockaddr_un address = { .sun_family = AF_UNIX };
	const char *path = getenv(WIRE_SOCKET);
	int control = socket(AF_UNIX, SOCK_SEQPACKET | SOCK_CLOEXEC, 0);

	if (path == NULL || strlen(path) >= sizeof(address.sun_path))
		give_up("no socket");
	strcpy(address.sun_path, path);
	if (control == -1 || connect(control, (struct sockaddr *)&address, sizeof(address)) == -1)
		give_up("connect");
	return control;
}

/* Some bytes, with some descriptors. Whether they went out. */
static inline int send_bytes(int control, const void *bytes, size_t size, const int *files, size_t count)
{
	struct iovec part = { (void *)(uintptr_t)bytes, size };
	union {
		struct cmsghdr header;
		char room[CMSG_SPACE(200 * sizeof(int))];
	} rights;
	struct msghdr packet = { .msg_iov = &part, .msg_iovlen = 1 };

	if (count > 0) {
		memset(&rights, 0, sizeof(rights));
		packet.msg_control = rights.room;
		packet.msg_controllen = CMSG_SPACE(count * sizeof(int));
		rights.header.cmsg_level = SOL_SOCKET;
		rights.header.cmsg_type = SCM_RIGHTS;
		rights.header.cmsg_len = CMSG_LEN(count * sizeof(int));
		memcpy(CMSG_DATA(&rights.header), files, count * sizeof(int));
	}
	return sendmsg(control, &packet, MSG_NOSIGNAL | MSG_DONTWAIT) == (ssize_t)size;
}

static inline int send_message(int control, const struct wire_message *message, const int *files, size_t count)
{
	return send_bytes(control, message, sizeof(*message), files, count);
}

/* A hello of this name, with what doord answers. Whether it let us in. */
static inline int hello(struct raw *raw, const char *name, uint32_t token, uint32_t version)
{
	struct wire_message message = { .kind = WIRE_HELLO, .version = version, .token = token }, answer;
	struct iovec part = { &answer, sizeof(answer) };
	union {
		struct cmsghdr header;
		char room[CMSG_SPACE(8 * sizeof(int))];
	} rights;
	struct msghdr packet = { .msg_iov = &part, .msg_iovlen = 1, .msg_control = rights.room, .msg_controllen = sizeof(rights.room) };
	int files[2];

	memset(message.name, 'x', sizeof(message.name));
	memcpy(message.name, name, strlen(name) < sizeof(message.name) ? strlen(name) + 1 : sizeof(message.name));
	raw->control = connected();
	if (!send_message(raw->control, &message, NULL, 0) || recvmsg(raw->control, &packet, MSG_CMSG_CLOEXEC) != sizeof(answer))
		return 0;
	if (answer.kind != WIRE_WELCOME || answer.error != 0)
		return 0;
	memcpy(files, CMSG_DATA(CMSG_FIRSTHDR(&packet)), sizeof(files));
	raw->memory = files[0];
	raw->bell = files[1];
	raw->area = mmap(NULL, sizeof(*raw->area), PROT_READ | PROT_WRITE, MAP_SHARED, raw->memory, 0);
	return raw->area != MAP_FAILED;
}

static inline void ring(const struct raw *raw)
{
	uint64_t one = 1;
	ssize_t written = write(raw->bell, &one, sizeof(one));

	(void)written;
}

static inline struct wire_request *request_of(const struct raw *raw, unsigned slot)
{
	struct wire_request *request = &raw->area->slot[slot].request;
	uint32_t number = request->number;

	memset(request, 0, sizeof(*request));
	request->number = number + 1;
	return request;
}

/* Asks what stands in the slot, and waits for at most so many milliseconds. Whether there was an answer. */
static inline int asked(const struct raw *raw, unsigned slot, int most)
{
	_Atomic uint32_t *turn = &raw->area->slot[slot].turn;

	atomic_store(turn, WIRE_ASKED);
	atomic_fetch_or(&raw->area->asked[slot / 64], 1ull << slot % 64);
	ring(raw);
	for (; most > 0; most--) {
		struct pollfd gone = { raw->control, 0, 0 };

		if (atomic_load(turn) == WIRE_TOLD)
			return 1;
		if (poll(&gone, 1, 1) == 1)
			return 0;
	}
	return 0;
}

static inline void welcome(struct raw *raw)
{
	if (!hello(raw, "hostile", 0, WIRE_VERSION))
		give_up("no welcome");
}

#endif
