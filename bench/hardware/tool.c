#define _GNU_SOURCE
#include "tool.h"

#include <elf.h>
#include <errno.h>
#include <fcntl.h>
#include <spawn.h>
#include <stdlib.h>
#include <string.h>
#include <sys/wait.h>
#include <unistd.h>

enum { PAGE = 4096, PATHS = 12, PATH_SIZE = 128, WORDS = 16, SEGMENTS = 8 };

extern char **environ;

static void fail(const char *what) {
    fprintf(stderr, "hardware: %s: %s\n", what, strerror(errno));
    exit(2);
}

void make_folder(struct tool *tool, const char *program) {
    tool->program = program;
    const char *above = access("/dev/shm", W_OK) ? "/tmp" : "/dev/shm";
    snprintf(tool->folder, sizeof tool->folder, "%s/hardware-XXXXXX", above);
    if (!mkdtemp(tool->folder))
        fail(tool->folder);
}

void remove_folder(const struct tool *tool) {
    static const char *const names[] = { "FILE", "STARTS", "SITES", "OUT", "REPORT", "WORLD" };
    for (size_t at = 0; at < sizeof names / sizeof *names; at++)
        if (unlink(path_in(tool, names[at])) && errno != ENOENT)
            fail(names[at]);
    if (rmdir(tool->folder))
        fail(tool->folder);
}

const char *path_in(const struct tool *tool, const char *name) {
    static char paths[PATHS][PATH_SIZE];
    static unsigned turn;
    char *path = paths[turn++ % PATHS];
    snprintf(path, PATH_SIZE, "%s/%s", tool->folder, name);
    return path;
}

FILE *open_in(const struct tool *tool, const char *name, const char *mode) {
    FILE *file = fopen(path_in(tool, name), mode);
    if (!file)
        fail(name);
    return file;
}

void close_written(FILE *file) {
    int failed = ferror(file);
    if (fclose(file) || failed)
        fail("a file can't be written");
}

static size_t read_all(int from, char *text, size_t room) {
    size_t size = 0;
    for (;;) {
        ssize_t got = read(from, text + size, room - 1 - size);
        if (got < 0 && errno == EINTR)
            continue;
        if (got < 0)
            fail("read");
        if (got == 0)
            break;
        size += (size_t)got;
    }
    text[size] = 0;
    return size;
}

int call_tool(const struct tool *tool, const char *const *words, char *text, size_t room) {
    char *given[WORDS] = { (char *)tool->program };
    int ends[2], status;
    pid_t pid;
    posix_spawn_file_actions_t actions;
    posix_spawnattr_t attributes; /* a group of its own: what ends a run that is timed isn't meant for it */
    for (size_t at = 0; words[at] && at + 2 < WORDS; at++)
        given[at + 1] = (char *)(words[at][0] == '@' ? path_in(tool, words[at] + 1) : words[at]);
    if (pipe2(ends, O_CLOEXEC) || posix_spawn_file_actions_init(&actions) ||
        posix_spawn_file_actions_adddup2(&actions, ends[1], 1) || posix_spawnattr_init(&attributes) ||
        posix_spawnattr_setflags(&attributes, POSIX_SPAWN_SETPGROUP) || posix_spawnattr_setpgroup(&attributes, 0))
        fail("pipe");
    errno = posix_spawn(&pid, tool->program, &actions, &attributes, given, environ);
    if (errno)
        fail(tool->program);
    posix_spawn_file_actions_destroy(&actions);
    posix_spawnattr_destroy(&attributes);
    close(ends[1]);
    read_all(ends[0], text, room);
    close(ends[0]);
    while (waitpid(pid, &status, 0) < 0)
        if (errno != EINTR)
            fail("waitpid");
    if (!WIFEXITED(status) || (WEXITSTATUS(status) >= 2 && WEXITSTATUS(status) <= 6)) {
        fprintf(stderr, "hardware: %s %s ended with %x: %s\n", tool->program, words[0], (unsigned)status, text);
        exit(2);
    }
    return WEXITSTATUS(status);
}

static void pad_to(FILE *file, size_t *at, size_t offset) {
    for (; *at < offset; ++*at)
        putc(0, file);
}

static size_t whole_pages(size_t size) { return (size + PAGE - 1) / PAGE * PAGE; }

void write_program(const struct tool *tool, const char *name, uint64_t entry, const struct segment *all, size_t count) {
    Elf64_Ehdr header = { .e_type = ET_EXEC,
                          .e_machine = EM_X86_64,
                          .e_version = EV_CURRENT,
                          .e_entry = entry,
                          .e_phoff = sizeof header,
                          .e_ehsize = sizeof header,
                          .e_phentsize = sizeof(Elf64_Phdr),
                          .e_phnum = (Elf64_Half)count };
    FILE *file = open_in(tool, name, "wb");
    size_t at = sizeof header + count * sizeof(Elf64_Phdr), offset = whole_pages(at);
    memcpy(header.e_ident, ELFMAG, SELFMAG);
    header.e_ident[EI_CLASS] = ELFCLASS64, header.e_ident[EI_DATA] = ELFDATA2LSB,
    header.e_ident[EI_VERSION] = EV_CURRENT;
    fwrite(&header, sizeof header, 1, file);
    for (size_t one = 0; one < count; one++) {
        Elf64_Phdr row = { .p_type = PT_LOAD,
                           .p_flags = (Elf64_Word)all[one].flags,
                           .p_offset = offset,
                           .p_vaddr = all[one].address,
                           .p_paddr = all[one].address,
                           .p_filesz = all[one].size,
                           .p_memsz = all[one].size,
                           .p_align = PAGE };
        fwrite(&row, sizeof row, 1, file);
        offset += whole_pages(all[one].size);
    }
    for (size_t one = 0; one < count; one++) {
        pad_to(file, &at, whole_pages(at));
        fwrite(all[one].bytes, 1, all[one].size, file);
        at += all[one].size;
    }
    close_written(file);
}
