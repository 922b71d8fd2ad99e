/* Printing for programs: one JSON object a line, on standard output. */
#ifndef JSON_H
#define JSON_H

#include <stddef.h>

/* An object is json_begin, its members, json_end. An array is json_array, its elements, json_array_end. A key is null for
   an element of an array. */
void json_begin(const char *key);
void json_end(void);
void json_array(const char *key);
void json_array_end(void);
void json_number(const char *key, unsigned long number);
void json_word(const char *key, const char *word);
void json_bytes(const char *key, const char *bytes, size_t length);

/* After the outermost object. */
void json_line(void);

#endif
