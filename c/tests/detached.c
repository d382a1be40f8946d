/* detached PROGRAM WORD ..: becomes a daemon by daemon(3), and then PROGRAM. */
#include "test.h"

int main(int argc, char **argv)
{
	if (argc < 2 || daemon(1, 1) == -1)
		return 2;
	execvp(argv[1], argv + 1);
	return 1;
}
