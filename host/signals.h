/* Signals, so that none of them ends the program between a commit and its answer. */
#ifndef SIGNALS_H
#define SIGNALS_H

/* A write that fails comes back as an error and not as a signal; into a pipe, where the program makes something. */
void signals_ignore(int makes);

/* From here on a request to end is noted, for whoever is between two calls. */
void signals_catch(void);

/* Whether the program was asked to end. */
int signals_came(void);

/* Ends by the signal that came, if one did: a shell then ends its loop too. */
void signals_end(void);

#endif
