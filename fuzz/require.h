#ifndef REQUIRE_H
#define REQUIRE_H

/* Ends the run, which keeps the input, where something does not hold. */
void require(int holds, const char *what);

#endif
