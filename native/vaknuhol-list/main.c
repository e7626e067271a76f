/* vaknuhol-list PROGRAM LIST [STARTS]: lists the instructions of a static ELF-64 program by evidence, with its blocks, into the file
   LIST (list_file.h), and their addresses into STARTS. */
#include <string.h>

#include "blocks.h"
#include "evidence.h"
#include "frames.h"
#include "gaps.h"
#include "jump_tables.h"
#include "list_file.h"
#include "refusing.h"
#include "restarts.h"
#include "symbols.h"
#include "words.h"

const struct refusal refusal = {3, "there is no memory for %zu bytes"};

static void list_all(struct evidence *it, struct names *names, struct gaps *gaps) {
    read_symbols(it, names);
    propose_frames(it);
    propose_entries(it);
    drain(it, AFTER_CALL);
    sweep_extents(it);
    propose_words(it, true);
    drain(it, WORD);
    propose_words(it, false);
    drain(it, WORD);
    if (judge_known_tables(it, true))
        drain(it, WORD);
    drain(it, TABLE);
    sweep_extents(it);
    drain(it, TABLE);
    sweep_gaps(it, gaps);
    find_restarts(it);
    finish(it);
}

int main(int count, char **words) {
    struct program program;
    struct evidence evidence;
    struct blocks blocks;
    struct names names = {NULL, 0, 0};
    struct gaps gaps = {NULL, 0, 0, 0, 0};
    if (count != 3 && count != 4)
        refuse("usage: vaknuhol-list PROGRAM LIST [STARTS]");
    open_program(&program, words[1]);
    begin_evidence(&evidence, &program);
    list_all(&evidence, &names, &gaps);
    if (!evidence.count)
        refuse("%s has no instruction that anything leads to", words[1]);
    part_blocks(&evidence, &blocks);
    write_list(words[2], &(struct told){&evidence, &blocks, &names, &gaps});
    if (count == 4)
        write_starts(words[3], &evidence);
    return 0;
}
