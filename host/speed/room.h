/* Memory, and the end of the program where it cannot go on. */
#ifndef SPEED_ROOM_H
#define SPEED_ROOM_H

#include <stddef.h>

__attribute__((noreturn)) void give_up(const char *what, const char *where);

/* Gives the room or ends the program. */
void *room_for(size_t bytes);
void *more_room(void *room, size_t bytes);

#endif
