/* What vaknuhol-step reads of a list. */
#include "harness.h"
#include "refusing.h"
#include "step.h"

const struct refusal refusal = {3, "there is no memory for the text"};

void try_input(const uint8_t *bytes, size_t size, const char *path) {
    struct text text;
    (void)bytes, (void)size;
    read_text(&text, path);
}

void forget_input(void) {}
