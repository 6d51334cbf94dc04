// A failed check ends the program and says what was being called.
#ifndef CHECK_H
#define CHECK_H

// Names the part of the test that runs, for the message of a failure.
void part(const char *name);

// Ends the program, with status 1, where `holds` is 0.
void check(int holds, const char *what);

// From here on a read or a write outside the buffers ends the program the same way.
void watch_faults(void);

#endif
