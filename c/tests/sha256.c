/* sha256: the sum of what is read, in pieces of odd sizes; `sha256 known`: sums that are known. */
#include "../src/sha256.c"

#include <stdio.h>
#include <string.h>
#include <unistd.h>

static const char short_one[] = "abcdbcdecdefdefgefghfghighijhijkijkljklmklmnlmnomnopnopq",
	long_one[] = "abcdefghbcdefghicdefghijdefghijkefghijklfghijklmghijklmn"
		"hijklmnoijklmnopjklmnopqklmnopqrlmnopqrsmnopqrstnopqrstu";

static void is_known(const char *part, int times, const char *wanted)
{
	struct sha256 sum;
	char text[SHA256_TEXT];
	int i;

	sha256_begin(&sum);
	for (i = 0; i < times; i++)
		sha256_add(&sum, part, strlen(part));
	sha256_end(&sum, text);
	if (strcmp(text, wanted) != 0)
		printf("%s: wanted %s, came %s\n", part, wanted, text);
}

/* the examples of FIPS 180 */
static void known(void)
{
	is_known("", 1, "e3b0c44298fc1c149afbf4c8996fb92427ae41e4649b934ca495991b7852b855");
	is_known("abc", 1, "ba7816bf8f01cfea414140de5dae2223b00361a396177a9cb410ff61f20015ad");
	is_known(short_one, 1, "248d6a61d20638b8e5c026930c3e6039a33ce45964ff2167f6ecedd419db06c1");
	is_known(long_one, 1, "cf5b16a778af8380036ce59e7b0492370b249b11e8f07a51afac45037afee9d1");
	is_known("a", 1000000, "cdc76e5c9914fb9281a1c7e284d73e67f1809a48a497200e046d39ccc7112cd0");
	is_known("aaaaaaaaaaaaaaaaaaaaaaaaaaaaaaaaaaaaaaaaaaaaaaaaaaaaaaaaaaaaaaaaaaaaaaaaaaaaaaaa", 12500,
		"cdc76e5c9914fb9281a1c7e284d73e67f1809a48a497200e046d39ccc7112cd0");
}

int main(int argc, char **argv)
{
	struct sha256 sum;
	char text[SHA256_TEXT], piece[200];
	ssize_t count;
	size_t size = 1;

	if (argc == 2 && strcmp(argv[1], "known") == 0) {
		known();
		puts("done");
		return 0;
	}
	sha256_begin(&sum);
	while ((count = read(STDIN_FILENO, piece, size)) > 0) {
		sha256_add(&sum, piece, (size_t)count);
		size = (size * 7 + 3) % sizeof(piece) + 1;
	}
	sha256_end(&sum, text);
	puts(text);
	return 0;
}
