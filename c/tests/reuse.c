/*
 * reuse DOORD: a connection whose process has ended, and whose pid another program has, when doord comes to take it. It is nobody's: whoever
 * says hello over it does not take the other program's place. DOORD is the pid of doord, which is stopped meanwhile. Where pids cannot be
 * chosen it says so.
 */
#include "raw.h"

/* The next process is to have this pid. */
static int choose_next(pid_t pid)
{
	char number[16];
	int file = open("/proc/sys/kernel/ns_last_pid", O_WRONLY | O_CLOEXEC), length = snprintf(number, sizeof(number), "%d", (int)pid - 1);
	int done = file != -1 && write(file, number, (size_t)length) == length;

	if (file != -1)
		close(file);
	return done;
}

/* A program that calls a door, twice. */
static void be_another(void)
{
	char answer[64];
	int door;

	wait_for("go");
	door = door_at("w");
	check(ask(door, "echo first", answer, sizeof(answer)) == 0);
	touch("called");
	wait_for("said");
	check(ask(door, "echo second", answer, sizeof(answer)) == 0 && strcmp(answer, "second") == 0);
	_exit(0);
}

/* A process with this pid, which is that program. */
static pid_t another_with(pid_t pid)
{
	int i;

	for (i = 0; i < 200; i++) {
		pid_t child;

		if (!choose_next(pid))
			return 0;
		child = fork();
		if (child == 0) {
			if (getpid() == pid)
				be_another();
			_exit(1);
		}
		if (child == pid)
			return child;
		end_of(child);
	}
	return 0;
}

/* A socket that a process connected which is no more, and its pid. */
static int left_behind(pid_t *pid)
{
	struct sockaddr_un address = { .sun_family = AF_UNIX };
	int control = socket(AF_UNIX, SOCK_SEQPACKET | SOCK_CLOEXEC, 0);

	strcpy(address.sun_path, getenv(WIRE_SOCKET));
	*pid = fork();
	if (*pid == 0)
		_exit(connect(control, (struct sockaddr *)&address, sizeof(address)) == 0 ? 0 : 1);
	check(end_of(*pid) == 0);
	return control;
}

int main(int argc, char **argv)
{
	struct wire_message hello = { .kind = WIRE_HELLO, .version = WIRE_VERSION, .name = "hostile" };
	pid_t doord = argc > 1 ? (pid_t)atoi(argv[1]) : 0, pid, other;
	int control;

	if (doord <= 1)
		return 2;
	signal(SIGPIPE, SIG_IGN);
	check(kill(doord, SIGSTOP) == 0);
	control = left_behind(&pid);
	other = another_with(pid);
	check(kill(doord, SIGCONT) == 0);
	touch("go");
	if (other == 0) {
		say("pids cannot be chosen here");
		return 0;
	}
	wait_for("called");
	if (send_message(control, &hello, NULL, 0)) {
		struct pollfd answer = { control, POLLIN, 0 };

		check(poll(&answer, 1, 10000) == 1);
	}
	touch("said");
	check(end_of(other) == 0);
	say("over");
	return 0;
}
