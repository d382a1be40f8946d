/*
 * many procedures: 70 procedures, of which 64 have names in the history. many paths: one door, attached to 4,098 files one after the other, of
 * which a kernel has 4,096 in its life.
 */
#include "test.h"

#define PROCEDURE(n) \
	static void work_##n(void *cookie, char *argument, size_t size, door_desc_t *descriptors, uint_t count) \
	{ \
		(void)cookie; \
		(void)argument; \
		(void)size; \
		(void)descriptors; \
		(void)count; \
		give(#n); \
	}
#define TEN(m, t) m(t##0) m(t##1) m(t##2) m(t##3) m(t##4) m(t##5) m(t##6) m(t##7) m(t##8) m(t##9)
#define ALL(m) TEN(m, 1) TEN(m, 2) TEN(m, 3) TEN(m, 4) TEN(m, 5) TEN(m, 6) TEN(m, 7)
#define ENTRY(n) work_##n,

ALL(PROCEDURE)

static void procedures(void)
{
	static door_server_procedure_t *const all[] = { ALL(ENTRY) };
	char answer[64], wanted[64];
	int i;

	for (i = 0; i < 70; i++) {
		int door = door_create(all[i], NULL, 0);

		snprintf(wanted, sizeof(wanted), "%d", 10 + i);
		check(ask(door, "", answer, sizeof(answer)) == 0 && strcmp(answer, wanted) == 0);
	}
}

static void paths(void)
{
	char name[64];
	int i, door = door_create(work_10, NULL, 0);

	for (i = 0; i < 4096; i++) {
		snprintf(name, sizeof(name), "f%d", i);
		touch(name);
		check(fattach(door, name) == 0 && fdetach(name) == 0);
	}
	touch("f4096");
	fails(fattach(door, "f4096"), EMFILE);
	fails(fattach(door, "f4096"), EMFILE);
	/* one that was there is there again */
	check(fattach(door, "f7") == 0 && fdetach("f7") == 0);
}

int main(int argc, char **argv)
{
	if (argc == 2 && strcmp(argv[1], "procedures") == 0)
		procedures();
	else
		paths();
	say("done");
	return 0;
}
