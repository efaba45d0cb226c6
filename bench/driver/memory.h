/* Every request for memory of the process: counted, and one of them refused. */
#ifndef MEMORY_H
#define MEMORY_H
#include <stddef.h>

extern long requests; /* how many there were */
extern long refused_at; /* the number of the one that is refused; 0: none */
extern long held; /* blocks that are held */
extern size_t bytes_asked; /* of all requests */
void *own_memory(size_t size); /* the driver's own, which is not counted */
#endif
