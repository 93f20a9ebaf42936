/* Frames over a socket: a letter, the length as a uint32_t of this machine, and that many bytes. */
#ifndef FRAME_H
#define FRAME_H

#include <stdbool.h>
#include <stddef.h>
#include <stdint.h>

enum { FRAME_HEAD = 5 };

extern bool wire_has_closed; /* whether the other side has closed a connection, instead of saying nothing */

void wire_patience(int socket, int milliseconds);
bool wire_send_all(int socket, const void *bytes, size_t len);
bool wire_send(int socket, char letter, const void *bytes, size_t len);
bool wire_receive(int socket, char *letter, uint8_t *bytes, size_t room, size_t *len);

#endif
