/* Where the program's own data lie, and which word in front of them is free to be the clock. */
#include "library.h"
#include <elf.h>
#include <fcntl.h>
#include <link.h>
#include <sys/mman.h>
#include <sys/stat.h>
#include <unistd.h>

size_t tls_size;

/* Its data, .data and .bss, lie side by side in one part of its image. */
struct image {
    const ElfW(Phdr) *parts;
    size_t part_count;
    uintptr_t base, first, writable, before, data, filled, end, sealed, slots;
    size_t slot_count;
};

/* The slots of functions that are bound late (.got.plt). */
static void find_slots(const ElfW(Dyn) *d, struct image *image) {
    for (; d->d_tag != DT_NULL; d++) {
        if (d->d_tag == DT_PLTGOT) image->slots = d->d_un.d_ptr;
        if (d->d_tag == DT_PLTRELSZ) image->slot_count = 3 + d->d_un.d_val / sizeof(ElfW(Rela));
    }
}

static void look_at(const ElfW(Phdr) *part, struct image *image) {
    uintptr_t at = image->base + part->p_vaddr, end = at + part->p_memsz;
    if (part->p_type == PT_LOAD && !image->first) image->first = at;
    if (part->p_type == PT_LOAD && part->p_flags & PF_W) {
        if (!image->writable) image->writable = at;
        image->before = image->end;
        image->data = at, image->filled = at + part->p_filesz, image->end = end;
    }
    if (part->p_type == PT_GNU_RELRO) image->sealed = end & -PAGE;
    if (part->p_type == PT_DYNAMIC) find_slots((void *)at, image);
    if (part->p_type == PT_TLS) tls_size = (part->p_memsz + part->p_align - 1) & -part->p_align;
}

/* (The program comes first.) */
static int find_image(struct dl_phdr_info *program, size_t size, void *found) {
    struct image *image = found;
    (void)size;
    image->base = program->dlpi_addr;
    image->parts = program->dlpi_phdr;
    image->part_count = program->dlpi_phnum;
    for (size_t i = 0; i < image->part_count; i++) look_at(&image->parts[i], image);
    return 1;
}

/* What is sealed once the program is loaded lies in front of .data, and then the slots, where a linker has not put them
 * behind. */
static uintptr_t data_of(const struct image *image) {
    uintptr_t at = image->data > image->sealed ? image->data : image->sealed;
    uintptr_t slots_end = image->slots + 8 * image->slot_count;
    bool follow = !image->sealed || image->slots <= at;
    if (follow && slots_end > at && slots_end + 16 <= image->filled) at = slots_end;
    return (at + 7) & -8;
}

/* -- the names in the program's file, if it has any -- */

struct file {
    const char *at;
    size_t size;
};

static struct file open_program(void) {
    struct stat told;
    int number = open("/proc/self/exe", O_RDONLY | O_CLOEXEC);
    if (number < 0) return (struct file){0};
    void *at = fstat(number, &told) ? MAP_FAILED : mmap(0, told.st_size, PROT_READ, MAP_PRIVATE, number, 0);
    close(number);
    return at == MAP_FAILED ? (struct file){0} : (struct file){at, told.st_size};
}

/* So many bytes of the file, or 0 where it ends before. */
static const void *part_of(const struct file *f, size_t at, size_t size) {
    return f->at && at <= f->size && f->size - at >= size ? f->at + at : 0;
}

/* The file is the program's: one that is run by a call of the loader is not the process's own. */
static const ElfW(Ehdr) *header_of(const struct file *f, const struct image *image) {
    const ElfW(Ehdr) *header = part_of(f, 0, sizeof *header);
    size_t size = image->part_count * sizeof *image->parts;
    const void *parts = header ? part_of(f, header->e_phoff, size) : 0;
    return parts && header->e_phnum == image->part_count && !memcmp(parts, image->parts, size) ? header : 0;
}

static uintptr_t find_name(const struct file *f, const ElfW(Shdr) *table, const ElfW(Shdr) *texts, const char *name) {
    const ElfW(Sym) *symbol = part_of(f, table->sh_offset, table->sh_size);
    size_t size = strlen(name) + 1, count = symbol ? table->sh_size / sizeof *symbol : 0;
    for (; count; count--, symbol++) {
        const char *text = part_of(f, texts->sh_offset + symbol->st_name, size);
        if (text && !memcmp(text, name, size)) return symbol->st_value;
    }
    return 0;
}

/* Where the program has this name, or 0 where that can't be told. */
static uintptr_t address_of(const char *name, const struct image *image) {
    struct file f = open_program();
    const ElfW(Ehdr) *header = header_of(&f, image);
    size_t count = header ? header->e_shnum : 0;
    const ElfW(Shdr) *sections = count ? part_of(&f, header->e_shoff, count * sizeof *sections) : 0;
    uintptr_t found = 0;
    for (size_t i = 0; sections && i < count; i++)
        if (sections[i].sh_type == SHT_SYMTAB && sections[i].sh_link < count)
            found = find_name(&f, &sections[i], &sections[sections[i].sh_link], name);
    if (f.at) munmap((void *)f.at, f.size);
    return found ? image->base + found : 0;
}

/* -- the clock: the word before the region -- */

/* The first word of .data, where the start files put a zero that nobody uses. Behind it they have a pointer to itself, or
 * another zero in a program that lies at a fixed place. 0 where they have not, since a linker has taken that zero out. */
static uintptr_t likely_clock(const struct image *image) {
    uint64_t *word = (void *)data_of(image), *last = (void *)(image->filled - 16);
    if (!image->base) return word[0] || word[1] ? 0 : (uintptr_t)word;
    while (word <= last && !word[0] && word[1] != (uintptr_t)&word[1]) word++;
    return word <= last && !word[0] ? (uintptr_t)word : 0;
}

/* (Variables that look like that come first where a linker sorts them, and other data lie in a part in front of it, as the
 * small ones of the medium model.) */
static uintptr_t clock_of(const struct image *image) {
    uintptr_t likely = image->before > image->sealed ? 0 : likely_clock(image);
    uintptr_t named = likely ? address_of("__data_start", image) : 0;
    return named && named != likely ? 0 : likely;
}

struct data find_data(void) {
    struct image image = {0};
    dl_iterate_phdr(find_image, &image);
    return (struct data){image.first, image.writable, clock_of(&image), image.end};
}
