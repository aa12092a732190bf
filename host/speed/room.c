/* Asking for memory. */
#include "speed/room.h"

#include <stdio.h>
#include <stdlib.h>

void give_up(const char *what, const char *where)
{
    printf("speed: %s%s\n", what, where);
    exit(1);
}

void *more_room(void *room, size_t bytes)
{
    void *more = realloc(room, bytes > 0 ? bytes : 1);
    if (more == NULL) {
        give_up("no memory", "");
    }
    return more;
}

void *room_for(size_t bytes)
{
    return more_room(NULL, bytes);
}
