/* Sockets of the loopback, and base64 lines over them. */
#ifndef INTEROP_CHANNEL_H
#define INTEROP_CHANNEL_H

#include "fe2o3_sasl.h"

#include <stdio.h>

/* The other side's bytes ended. The library has no status of this value. */
#define OTHER_SIDE_ENDED UINT32_MAX

struct text {
    uint8_t bytes[2048];
    size_t len;
};

/* Writes a line: the base64 of a text. */
void write_base64(FILE *out, const struct text *text);

/* Reads the base64 of a text. Returns 0 if it is none, or too long. */
int read_base64(const char *line, struct text *text);

/* Reads a line without its end. Returns 0 at the end of the file. */
int read_line(FILE *in, char *line, size_t room);

/* Reads a line: the base64 of a message. Returns FE2O3_OK or OTHER_SIDE_ENDED. */
uint32_t read_message(FILE *in, struct text *message);

/* Writes random bytes. Returns 0 if the system has none. */
int random_bytes(uint8_t *bytes, size_t len);

/* Returns a connection to a port of the loopback, or a listener on it; -1 if there is none. */
int loopback(const char *port, int listens);

#endif
