/* The environment variable FAULT names the fault that is planted. */
#ifndef FAULTS_H
#define FAULTS_H

int is(const char *fault);

#endif
