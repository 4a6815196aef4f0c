/* What is wrong with the header, by header.c; null if nothing is. */
#ifndef HEADER_H
#define HEADER_H

const char *header_wrong(void);

#endif
