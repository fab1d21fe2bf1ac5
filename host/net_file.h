/* Nets and markings from readable files, as host/nets has them: words in hexadecimal, # before a comment, the net first and after the line "marking"
   the marking. */
#ifndef NET_FILE_H
#define NET_FILE_H

#include "random.h"

/* Reads a file; ends the program with a message where it cannot be read or has something else than words in it. */
void read_net_file(const char *directory, const char *name, struct words *net, struct words *marking);

#endif
