/* The state of x87, SSE and AVX before an instruction, and after it at two places. */
#ifndef STATES_H
#define STATES_H

/* Finds out what XSAVE keeps here; where there is no XSAVE, nothing of it is compared, and that is told. */
void find_states(void);

/* A state with random numbers in it, from which both runs begin. */
void draw_state(void);
void use_first_state(void);
void use_second_state(void);

/* Whether both runs have left the same, but for what x87 keeps of where its last instruction stood (FOP, FIP, FDP). */
int same_states(void);
#endif
