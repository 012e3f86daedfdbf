/* The calls that are measured: each is drawn anew on the lab's file. */
#ifndef SCENES_H
#define SCENES_H

#include "lab.h"

/* A call's name, and how its frame is drawn; file and currency are put as it needs them. */
typedef struct {
    const char *name;
    Frame (*drawn)(Lab *lab);
} Scene;

extern const Scene SCENES[];
extern const size_t SCENE_COUNT;

#endif
