/* Runs play.c under Linux: standard input and output. */
#include <stdio.h>

#include "port.h"

int port_get(void)
{
    return getchar();
}

void port_put(int byte)
{
    putchar(byte);
}

int port_close(int status)
{
    return fflush(stdout) ? 2 : status;
}
