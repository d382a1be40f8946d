/* counts FILE: calls w with the numbers from 1 on, and leaves in FILE the last that was answered, until doord is gone. */
#include "test.h"

#include <sys/mman.h>

int main(int argc, char **argv)
{
	char request[64], answer[64];
	int door = open("w", O_RDWR), file = argc == 2 ? open(argv[1], O_RDWR | O_CREAT | O_TRUNC, 0600) : -1;
	volatile long *answered;
	long i;

	if (door == -1 || file == -1 || ftruncate(file, 4096) == -1)
		return 2;
	answered = mmap(NULL, 4096, PROT_READ | PROT_WRITE, MAP_SHARED, file, 0);
	for (i = 1;; i++) {
		snprintf(request, sizeof(request), "echo %ld", i);
		if (ask(door, request, answer, sizeof(answer)) != 0 || strcmp(answer, request + 5) != 0)
			return 3;
		*answered = i;
	}
}
