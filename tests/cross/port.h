/* Says where the bytes of play.c come from and where they go: port_linux.c, port_board.c and port_wasm.c define it. */
#ifndef PORT_H
#define PORT_H
#include <stddef.h>

/* There may be no string.h. */
void *memcpy(void *to, const void *from, size_t n);
void *memset(void *to, int byte, size_t n);

/* Returns the next byte, or -1 at the end. */
int port_get(void);
void port_put(int byte);
/* Writes what is left, and returns what main is to return: `status`, or another if that failed. */
int port_close(int status);
#endif
