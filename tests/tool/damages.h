/* The parts of the test of the tool. */
#ifndef DAMAGES_H
#define DAMAGES_H

#include "make.h"

int check_damages(void);
/* 0 where the groups are what the answer says of them; counts those of over four boundaries. */
int check_groups(const struct run *run, unsigned long *large);
/* Marks that were compared; of these, chokes that are no bridge, and boundaries of several pairs that are no choke. */
struct marked {
    unsigned long compared, whole, round;
};

/* 0 where the marks, and what the tool says that closing parts, are what is apart with all pairs of a boundary taken away, and the
 * tool's bridges what is with one. */
int check_marks(const struct run *run, struct marked *marked);
/* 0 where the cards are what the labels and the job's cells say; counts those that were compared. */
int check_cards(const struct run *run, unsigned long *compared);
/* 0 where the page's paths, read back, draw every walkable cell once and in its area; counts the cells. */
int check_cells(const struct run *run, const char *page, unsigned long *compared);

#endif
