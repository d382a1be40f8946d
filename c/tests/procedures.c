/*
 * procedures: 70 doors of as many procedures, of which a process may have 64 in the kernel's whole life, and 200 doors of one. What is too
 * many is an error, and what is there goes on.
 */
#include "test.h"

#define PROCEDURE(n)                                                                                                               \
	static void a_procedure_with_a_very_long_name_##n(void *cookie, char *argument, size_t size, door_desc_t *descriptors,     \
		uint_t count)                                                                                                      \
	{                                                                                                                          \
		(void)cookie;                                                                                                      \
		(void)argument;                                                                                                    \
		(void)size;                                                                                                        \
		(void)descriptors;                                                                                                 \
		(void)count;                                                                                                       \
		give(#n);                                                                                                          \
	}
#define TEN(m, t) m(t##0) m(t##1) m(t##2) m(t##3) m(t##4) m(t##5) m(t##6) m(t##7) m(t##8) m(t##9)
#define ALL(m) TEN(m, 1) TEN(m, 2) TEN(m, 3) TEN(m, 4) TEN(m, 5) TEN(m, 6) TEN(m, 7)
#define ENTRY(n) a_procedure_with_a_very_long_name_##n,

ALL(PROCEDURE)

static door_server_procedure_t *const procedures[] = { ALL(ENTRY) };

int main(void)
{
	int i, door[70], made = 0, again = 0;
	char answer[64], wanted[64];

	for (i = 0; i < 70; i++) {
		door[i] = door_create(procedures[i], NULL, 0);
		if (door[i] != -1)
			made++;
	}
	check(made >= 64);
	for (i = 0; i < 70; i++) {
		if (door[i] == -1)
			continue;
		snprintf(wanted, sizeof(wanted), "%d", 10 + i);
		check(ask(door[i], "", answer, sizeof(answer)) == 0 && strcmp(answer, wanted) == 0);
	}
	for (i = 0; i < 200; i++) {
		int it = door_create(procedures[0], NULL, 0);

		if (it != -1 && ask(it, "", answer, sizeof(answer)) == 0 && strcmp(answer, "10") == 0 && door_revoke(it) == 0)
			again++;
	}
	check(again == 200);
	say("done");
	return 0;
}
