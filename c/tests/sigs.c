/* sigs INT|QUIT PROGRAM WORD ..: becomes PROGRAM, to which the signal does what it does: a shell has its background ignore it. */
#include "test.h"

int main(int argc, char **argv)
{
	if (argc < 3)
		return 2;
	signal(strcmp(argv[1], "INT") == 0 ? SIGINT : SIGQUIT, SIG_DFL);
	execvp(argv[2], argv + 2);
	return 1;
}
