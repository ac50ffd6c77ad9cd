/* Words of a line: letters, digits, and apostrophes inside. */
#ifndef SPLIT_H
#define SPLIT_H

/* Copies the next word in lower case, cut to the room, and gives what is behind it, or NULL where there is none. */
const char *next_word(const char *at, char *to, int room);

#endif
