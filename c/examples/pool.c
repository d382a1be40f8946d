/*
 * pool PATH MOST: squares numbers as server.c does, slowly, by threads of its own.
 *
 * The door is private: only threads that are bound to it serve it. The library says when a thread is wanted, by a call of the function
 * that door_server_create(3C) was given: once as the door is made, and again whenever a call takes the last thread that waits. No more
 * than MOST threads are made; further clients wait until one of them is free.
 */
#include <door.h>
#include <fcntl.h>
#include <pthread.h>
#include <stdio.h>
#include <stdlib.h>
#include <string.h>
#include <stropts.h>
#include <unistd.h>

static pthread_mutex_t lock = PTHREAD_MUTEX_INITIALIZER;
static pthread_cond_t door_is_made = PTHREAD_COND_INITIALIZER;
static int door = -1;
static int threads, most;

static void square(void *cookie, char *argument, size_t size, door_desc_t *descriptors, uint_t descriptor_count)
{
	int number;
	long long result;

	(void)cookie;
	(void)descriptors;
	(void)descriptor_count;
	if (size != sizeof(number))
		door_return(NULL, 0, NULL, 0);
	memcpy(&number, argument, sizeof(number));
	usleep(100000);
	result = (long long)number * number;
	door_return((char *)&result, sizeof(result), NULL, 0);
	perror("door_return");
}

static void *serve(void *unused)
{
	(void)unused;
	/* The first thread is made before door_create has told the door's descriptor. */
	pthread_mutex_lock(&lock);
	while (door == -1)
		pthread_cond_wait(&door_is_made, &lock);
	pthread_mutex_unlock(&lock);
	pthread_setcancelstate(PTHREAD_CANCEL_DISABLE, NULL);
	if (door_bind(door) == -1) {
		perror("door_bind");
		return NULL;
	}
	door_return(NULL, 0, NULL, 0);
	perror("door_return");
	return NULL;
}

/* A thread is wanted: for the door that info tells of, or, if it is NULL, for the doors that are not private. This program has none. */
static void make_thread(door_info_t *info)
{
	pthread_t thread;
	int number;

	if (info == NULL)
		return;
	pthread_mutex_lock(&lock);
	number = threads < most ? ++threads : 0;
	pthread_mutex_unlock(&lock);
	if (number == 0)
		return;
	printf("thread %d\n", number);
	fflush(stdout);
	if (pthread_create(&thread, NULL, serve, NULL) == 0)
		pthread_detach(thread);
}

int main(int argc, char **argv)
{
	int file, made;

	if (argc != 3) {
		fprintf(stderr, "usage: pool PATH MOST\n");
		return 2;
	}
	most = atoi(argv[2]);
	door_server_create(make_thread);
	made = door_create(square, NULL, DOOR_PRIVATE);
	file = open(argv[1], O_CREAT | O_RDWR, 0644);
	if (made == -1 || file == -1 || close(file) == -1) {
		perror("pool");
		return 1;
	}
	pthread_mutex_lock(&lock);
	door = made;
	pthread_cond_broadcast(&door_is_made);
	pthread_mutex_unlock(&lock);
	if (fattach(door, argv[1]) == -1) {
		perror("fattach");
		return 1;
	}
	for (;;)
		pause();
}
