/*
 * libdoor_symbols.c: the name of a server procedure, for the history. dladdr(3) does not know static functions, so the table of symbols in
 * the program's file is read, or in the file of the library that has the procedure.
 */
#include "libdoor.h"

#include <elf.h>
#include <fcntl.h>
#include <limits.h>
#include <link.h>
#include <string.h>
#include <sys/mman.h>
#include <sys/stat.h>
#include <sys/syscall.h>
#include <unistd.h>

/* The file that has the procedure, and where the procedure lies in it. */
struct place {
	uintptr_t address;
	bool is_found;
	char path[PATH_MAX];
};

struct image {
	const unsigned char *at;
	size_t size;
};

static int see_object(struct dl_phdr_info *object, size_t size, void *argument)
{
	struct place *place = argument;

	(void)size;
	for (unsigned i = 0; i < object->dlpi_phnum; i++) {
		const ElfW(Phdr) *part = &object->dlpi_phdr[i];
		uintptr_t begin = object->dlpi_addr + part->p_vaddr;
		if (part->p_type != PT_LOAD || place->address - begin >= part->p_memsz)
			continue;
		const char *path = object->dlpi_name && *object->dlpi_name ? object->dlpi_name : "/proc/self/exe";
		if (strlen(path) >= sizeof place->path)
			return 1;
		memcpy(place->path, path, strlen(path) + 1);
		place->address -= object->dlpi_addr;
		place->is_found = true;
		return 1;
	}
	return 0;
}

static bool has_room(const struct image *image, uint64_t offset, uint64_t size)
{
	return offset <= image->size && size <= image->size - offset;
}

static bool read_section(const struct image *image, const ElfW(Ehdr) *header, unsigned number, ElfW(Shdr) *section)
{
	uint64_t offset = header->e_shoff + (uint64_t)number * sizeof *section;

	if (number >= header->e_shnum || offset < header->e_shoff || !has_room(image, offset, sizeof *section))
		return false;
	memcpy(section, image->at + offset, sizeof *section);
	return section->sh_type == SHT_NOBITS || has_room(image, section->sh_offset, section->sh_size);
}

static size_t copy_name(const struct image *image, const ElfW(Shdr) *names, uint32_t at, char *name, size_t room)
{
	if (at >= names->sh_size)
		return 0;
	const char *text = (const char *)image->at + names->sh_offset + at;
	size_t size = strnlen(text, names->sh_size - at);
	size = size < room ? size : room;
	memcpy(name, text, size);
	return size;
}

/* The name of the function at this address, in one table. */
static size_t search(const struct image *image, const ElfW(Ehdr) *header, const ElfW(Shdr) *table, uintptr_t address, char *name, size_t room)
{
	ElfW(Shdr) names;

	if (table->sh_entsize != sizeof(ElfW(Sym)) || !read_section(image, header, table->sh_link, &names) || names.sh_type != SHT_STRTAB)
		return 0;
	for (uint64_t i = 0; i < table->sh_size / sizeof(ElfW(Sym)); i++) {
		ElfW(Sym) symbol;
		memcpy(&symbol, image->at + table->sh_offset + i * sizeof symbol, sizeof symbol);
		if (ELF64_ST_TYPE(symbol.st_info) == STT_FUNC && symbol.st_value == address && symbol.st_shndx != SHN_UNDEF)
			return copy_name(image, &names, symbol.st_name, name, room);
	}
	return 0;
}

static size_t search_all(const struct image *image, uintptr_t address, char *name, size_t room)
{
	static const uint32_t kind[] = { SHT_SYMTAB, SHT_DYNSYM };
	ElfW(Ehdr) header;
	size_t size = 0;

	if (!has_room(image, 0, sizeof header))
		return 0;
	memcpy(&header, image->at, sizeof header);
	if (memcmp(header.e_ident, ELFMAG, SELFMAG) != 0 || header.e_ident[EI_CLASS] != ELFCLASS64 || header.e_shentsize != sizeof(ElfW(Shdr)))
		return 0;
	for (unsigned k = 0; k < 2 && size == 0; k++)
		for (unsigned i = 0; i < header.e_shnum && size == 0; i++) {
			ElfW(Shdr) section;
			if (read_section(image, &header, i, &section) && section.sh_type == kind[k])
				size = search(image, &header, &section, address, name, room);
		}
	return size;
}

/* The procedure's name, of at most `room` bytes and without an end: its size, 0 where it has none. */
size_t name_procedure(door_server_procedure_t *procedure, char *name, size_t room)
{
	struct place place = { .is_found = false };
	struct stat found;
	size_t size = 0;

	memcpy(&place.address, &procedure, sizeof procedure);
	(void)dl_iterate_phdr(see_object, &place);
	int file = place.is_found ? real_openat(AT_FDCWD, place.path, O_RDONLY | O_CLOEXEC, 0) : -1;
	if (file < 0)
		return 0;
	if (real_fstat(file, &found) == 0 && found.st_size > 0) {
		void *at = mmap(NULL, (size_t)found.st_size, PROT_READ, MAP_PRIVATE, file, 0);
		if (at != MAP_FAILED) {
			const struct image image = { at, (size_t)found.st_size };
			size = search_all(&image, place.address, name, room);
			(void)munmap(at, image.size);
		}
	}
	(void)syscall(SYS_close, file);
	return size;
}
