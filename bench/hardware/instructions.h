/* Draws an instruction of a form, and registers, flags and memory that let it run. */
#ifndef INSTRUCTIONS_H
#define INSTRUCTIONS_H
#include "forms.h"
#include "guest.h"
#include "trial.h"

void draw_trial(const struct form *form, const struct run *run, struct trial *trial);
#endif
