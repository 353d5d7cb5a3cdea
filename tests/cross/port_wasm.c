/* Runs play.c in WebAssembly: play.mjs lends get and put, and calls main. */
#include "port.h"

__attribute__((import_name("get"))) int host_get(void);
__attribute__((import_name("put"))) void host_put(int byte);

int port_get(void)
{
    return host_get();
}

void port_put(int byte)
{
    host_put(byte);
}

int port_close(int status)
{
    return status;
}
