/* doord_connections.c: who connects. */
#include "doord.h"

#include <errno.h>
#include <fcntl.h>
#include <stdlib.h>
#include <sys/epoll.h>
#include <sys/socket.h>
#include <sys/syscall.h>
#include <unistd.h>

#ifndef SO_PEERPIDFD
#define SO_PEERPIDFD 77
#endif

/* What the system says of the other end. */
static bool ask_peer(struct client *client, struct ucred *peer)
{
	socklen_t size = sizeof *peer;

	if (getsockopt(client->control, SOL_SOCKET, SO_PEERCRED, peer, &size) < 0)
		return false;
	return peer->uid == geteuid() || geteuid() == 0;
}

/*
 * A pidfd of the process that connected. It may have died meanwhile, and another may have its pid; so the system is asked for that of the
 * connection itself, where it has such.
 */
static int death_of_peer(int control, pid_t pid)
{
	int death = -1;
	socklen_t size = sizeof death;

	if (getsockopt(control, SOL_SOCKET, SO_PEERPIDFD, &death, &size) == 0)
		return death;
	return errno == ENOPROTOOPT ? (int)syscall(SYS_pidfd_open, pid, 0) : -1;
}

/* Where doord has no descriptor left, whoever comes is sent away, and not left to knock. */
static void send_away(void)
{
	if (doord.reserve >= 0)
		close(doord.reserve);
	int control = accept4(doord.listener, NULL, NULL, SOCK_CLOEXEC);
	if (control >= 0)
		close(control);
	doord.reserve = open("/dev/null", O_RDWR | O_CLOEXEC);
}

/* How many connections of this process wait for its hello. */
static unsigned strangers_of(pid_t pid)
{
	unsigned count = 0;

	for (const struct client *client = doord.clients; client; client = client->next)
		count += client->pid == pid && client->place == 0;
	return count;
}

/* Where there are too many that say nothing, the first that came of the process that has most of them makes room. */
static void make_room_for_strangers(void)
{
	struct client *first = NULL;
	unsigned most = 0;

	if (doord.strangers < DOORD_STRANGERS)
		return;
	/* those that came last stand first */
	for (struct client *client = doord.clients; client; client = client->next) {
		unsigned count = client->place == 0 ? strangers_of(client->pid) : 0;
		if (count > 0 && count >= most) {
			first = client;
			most = count;
		}
	}
	if (first)
		end_client(first);
}

void take_connection(void)
{
	int control = accept4(doord.listener, NULL, NULL, SOCK_CLOEXEC | SOCK_NONBLOCK);
	struct client someone = { .control = control };
	struct ucred peer;

	if (control < 0) {
		if (errno == EMFILE || errno == ENFILE)
			send_away();
		return;
	}
	struct client *client = ask_peer(&someone, &peer) ? new_client(peer.pid, death_of_peer(control, peer.pid)) : NULL;
	if (!client) {
		close(control);
		return;
	}
	const int unread = DOORD_UNREAD / 2; /* the system takes it twice */
	(void)setsockopt(control, SOL_SOCKET, SO_SNDBUF, &unread, sizeof unread);
	make_room_for_strangers();
	doord.strangers++;
	client->control = control;
	client->euid = peer.uid;
	client->egid = peer.gid;
	client->on_control = (struct watch){ WATCH_CONTROL, client, 0 };
	if (!watch(control, &client->on_control, EPOLLIN))
		end_client(client);
}
