/* Gives the name two.test two addresses, 127.0.0.2 and then 127.0.0.1, in a process into which it is loaded first. For
   tests/remote.py. */
#define _GNU_SOURCE
#include <dlfcn.h>
#include <netdb.h>
#include <stddef.h>
#include <string.h>

typedef int look_up(const char *, const char *, const struct addrinfo *, struct addrinfo **);

int getaddrinfo(const char *node, const char *service, const struct addrinfo *hints, struct addrinfo **found)
{
    look_up *system = (look_up *)dlsym(RTLD_NEXT, "getaddrinfo");
    if (node == NULL || strcmp(node, "two.test") != 0)
        return system(node, service, hints, found);
    int failed = system("127.0.0.2", service, hints, found);
    if (failed)
        return failed;
    struct addrinfo *last = *found;
    while (last->ai_next != NULL)
        last = last->ai_next;
    return system("127.0.0.1", service, hints, &last->ai_next);
}
