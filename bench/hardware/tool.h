/* The proved program, called with files of a folder of its own. */
#ifndef TOOL_H
#define TOOL_H
#include <stddef.h>
#include <stdint.h>
#include <stdio.h>

/* Where its files lie, and the program's path; the folder is made by make_folder and goes by remove_folder. */
struct tool {
    const char *program;
    char folder[64];
};

void make_folder(struct tool *tool, const char *program);
void remove_folder(const struct tool *tool);

/* The path of a file of the folder, in one of a few buffers that take turns. */
const char *path_in(const struct tool *tool, const char *name);

/* A file of the folder, opened to be written or read; where it can't be, the program ends. */
FILE *open_in(const struct tool *tool, const char *name, const char *mode);
void close_written(FILE *file);

/* Calls the program with the words, the last of which is NULL; a word that begins with @ is a file of the folder.
   Answers its status, or ends the program where it can't be called or dies; what it prints goes to the text. */
int call_tool(const struct tool *tool, const char *const *words, char *text, size_t room);

/* A segment of a made program: its address, permissions (PF_R ..), bytes, and its length in memory. */
struct segment {
    uint64_t address, flags;
    const void *bytes;
    size_t size;
};

/* Writes a static program of these segments, ascending and on pages of their own, to a file of the folder. */
void write_program(const struct tool *tool, const char *name, uint64_t entry, const struct segment *all, size_t count);
#endif
