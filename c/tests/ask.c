/*
 * ask [-t THREADS] [-n TIMES] [-h signal|sigaction] [-a SECONDS] [-k FILE] PATH REQUEST ..: a client of serve.
 *
 * It prints each request with what came: the answer, or the name of the error. With -t so many threads make each request at once, with -n
 * each makes it so many times, and it prints how often what came: `48 ok`. -h handles SIGALRM, and prints at the end how often, -a sets an
 * alarm, -k keeps the door open until FILE is there.
 */
#include "test.h"

enum { ERRORS = 200, THREADS = 128, ROOM = 4097 };

static struct {
	int threads, times, door;
	const char *request;
	pthread_mutex_t lock;
	pthread_barrier_t start;
	long came[ERRORS];
} all = { .lock = PTHREAD_MUTEX_INITIALIZER };

static volatile sig_atomic_t handled;

static void on_alarm(int number)
{
	(void)number;
	handled++;
}

static void handle(const char *how)
{
	struct sigaction action;

	if (strcmp(how, "signal") == 0) {
		signal(SIGALRM, on_alarm);
		return;
	}
	memset(&action, 0, sizeof(action));
	action.sa_handler = on_alarm;
	sigaction(SIGALRM, &action, NULL);
}

static void *ask_often(void *unused)
{
	int i;
	char answer[ROOM];

	if (all.threads > 1)
		pthread_barrier_wait(&all.start);
	for (i = 0; i < all.times; i++) {
		int error = ask(all.door, all.request, answer, sizeof(answer));

		if (error < 0 || error >= ERRORS)
			error = ERRORS - 1;
		pthread_mutex_lock(&all.lock);
		all.came[error]++;
		pthread_mutex_unlock(&all.lock);
	}
	return unused;
}

static void ask_together(const char *request)
{
	pthread_t thread[THREADS];
	int i;

	all.request = request;
	memset(all.came, 0, sizeof(all.came));
	pthread_barrier_init(&all.start, NULL, (unsigned)all.threads);
	for (i = 0; i < all.threads; i++)
		thread[i] = thread_of(ask_often, NULL);
	for (i = 0; i < all.threads; i++)
		pthread_join(thread[i], NULL);
	for (i = 0; i < ERRORS; i++) {
		if (all.came[i] > 0)
			say("%ld %s", all.came[i], error_name(i));
	}
}

static void ask_once(const char *request)
{
	char answer[ROOM];
	int error = ask(all.door, request, answer, sizeof(answer));

	say("%s: %s", request, error == 0 ? answer : error_name(error));
}

int main(int argc, char **argv)
{
	int option;
	const char *kept = NULL, *handler = NULL;

	while ((option = getopt(argc, argv, "t:n:h:a:k:")) != -1) {
		switch (option) {
		case 't':
			all.threads = atoi(optarg);
			break;
		case 'n':
			all.times = atoi(optarg);
			break;
		case 'h':
			handler = optarg;
			handle(handler);
			break;
		case 'a':
			alarm((unsigned)atoi(optarg));
			break;
		case 'k':
			kept = optarg;
			break;
		default:
			return 2;
		}
	}
	if (optind >= argc || all.threads > THREADS)
		return 2;
	all.door = open(argv[optind], O_RDWR);
	if (all.door == -1)
		give_up(argv[optind]);
	for (option = optind + 1; option < argc; option++) {
		if (all.threads == 0 && all.times == 0) {
			ask_once(argv[option]);
			continue;
		}
		all.threads = all.threads == 0 ? 1 : all.threads;
		all.times = all.times == 0 ? 1 : all.times;
		ask_together(argv[option]);
	}
	if (handler != NULL)
		say("handled %d", (int)handled);
	if (kept != NULL)
		wait_for(kept);
	close(all.door);
	return 0;
}
