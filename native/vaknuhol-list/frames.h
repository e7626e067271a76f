/* The frames of .eh_frame (LSB core, Exception Frames): each tells where a function begins, and how many bytes it has. */
#ifndef FRAMES_H
#define FRAMES_H
#include "evidence.h"

/* Proposes what the frames of the section .eh_frame tell or, without one, those that .eh_frame_hdr names. */
void propose_frames(struct evidence *it);
#endif
