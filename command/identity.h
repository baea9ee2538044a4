/* Which build this is, so that two can be seen to be the same one. */
#ifndef COMMAND_IDENTITY_H
#define COMMAND_IDENTITY_H

/* Prints the versions of the command and of the library that it runs, the proved module of which that was compiled, and the kit that
 * proved it. */
void identity_print(void);

#endif
