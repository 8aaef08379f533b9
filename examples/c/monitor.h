#ifndef MONITOR_H
#define MONITOR_H

/* Writes each datagram in which the kernel tells of a change of a link, an address, a route, a rule or a neighbour to
 * standard output. It ends where reading or writing fails, with a line on standard error, and answers -1. */
int monitor(void);

#endif
