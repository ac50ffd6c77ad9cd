/* A reference is two bytes: 12 bits of distance and 4 bits of length. */
#ifndef FORMAT_H
#define FORMAT_H

enum { WINDOW = 4096, LEAST = 3, MOST = LEAST + 15 };

#endif
