/* Calls that threads make beside each other, and when each began and returned. */
#ifndef THREADS_H
#define THREADS_H

/* A call of a thread for the next time that they go: `T wait letter fields`, see player.c. */
void thread_takes(const char *line);
/* Each thread makes its calls in their order; then all are told, and forgotten. */
void threads_go(void);
#endif
