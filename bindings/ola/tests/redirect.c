/* Lets OLA's tools reach a daemon at the port OLA_RPC_PORT of this machine, since they have no option for it. */
#define _GNU_SOURCE
#include <arpa/inet.h>
#include <dlfcn.h>
#include <netinet/in.h>
#include <stdlib.h>
#include <string.h>
#include <sys/socket.h>

#define TOOLS_PORT 9010

int connect(int socket, const struct sockaddr *address, socklen_t length) {
    int (*const next)(int, const struct sockaddr *, socklen_t) = dlsym(RTLD_NEXT, "connect");
    const char *const port = getenv("OLA_RPC_PORT");
    struct sockaddr_in other;
    if (port == NULL || address->sa_family != AF_INET || length != sizeof other) {
        return next(socket, address, length);
    }
    memcpy(&other, address, sizeof other);
    if (ntohs(other.sin_port) == TOOLS_PORT) {
        other.sin_port = htons((in_port_t)atoi(port));
    }
    return next(socket, (const struct sockaddr *)&other, sizeof other);
}
