/* Lending a file's bytes: to be read and not written, with pages on both sides that cannot be touched at all. */
#define _DEFAULT_SOURCE
#include <stdio.h>
#include <stdlib.h>
#include <string.h>
#include <sys/mman.h>
#include <unistd.h>

#include "second.h"

static struct pages pages;

/* Ends the run where memory cannot be had. */
void need(bool done, const char *what)
{
    if (!done) {
        perror(what);
        exit(2);
    }
}

/* Pages for the bytes of a file, none of which can be touched yet. Mostly the file's last byte is the last before the page beyond, and for
 * some files its first byte is the first after the page before; where the length is a multiple of a page, both hold. */
struct pages map_file(const struct file *file)
{
    size_t page = (size_t)sysconf(_SC_PAGESIZE);
    struct pages mapped = {.inner_size = (file->length + page - 1) / page * page};
    mapped.size = mapped.inner_size + 2 * page;
    mapped.area = mmap(NULL, mapped.size, PROT_NONE, MAP_PRIVATE | MAP_ANONYMOUS | MAP_NORESERVE, -1, 0);
    need(mapped.area != MAP_FAILED, "mmap");
    mapped.inner = mapped.area + page;
    mapped.bytes = file->number % 4 == 3 ? mapped.inner : mapped.inner + (mapped.inner_size - file->length);
    return mapped;
}

/* Opens the pages from `start` on to reading or writing, or shuts them; there may be none. */
void open_pages(uint8_t *start, size_t size, int protection)
{
    need(size == 0 || mprotect(start, size, protection) == 0, "mprotect");
}

/* Copies the file into pages of its own and shuts them to writing. Some files of no bytes are lent as a null pointer. */
void lend_file(struct file *file)
{
    pages = map_file(file);
    open_pages(pages.inner, pages.inner_size, PROT_READ | PROT_WRITE);
    memset(pages.inner, 0xA5, (size_t)(pages.bytes - pages.inner));
    memcpy(pages.bytes, file->bytes, file->kept);
    open_pages(pages.inner, pages.inner_size, PROT_READ);
    file->lent = file->length == 0 && file->number % 2 == 1 ? NULL : pages.bytes;
}

/* Whether the lent bytes are still those of the file. */
bool same_bytes(const struct file *file)
{
    return file->kept == 0 || memcmp(file->lent, file->bytes, file->kept) == 0;
}

/* Gives the pages back. */
void take_back_file(struct file *file)
{
    munmap(pages.area, pages.size);
    file->lent = NULL;
}
