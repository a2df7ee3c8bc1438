/* The checks of each call, those that take little time first. */
#ifndef CHECKS_H
#define CHECKS_H

void check_reading(void);
void check_writing(void);
void check_ratios(void);
void check_counts(void);
void check_what_is_stated(void);
void check_salvaging(void);
void check_steps(void);
void check_rooms(void);
void check_runs(void);
void check_many_reads(void);
void check_climbs(void);
void check_longest_sheet(void);

#endif
