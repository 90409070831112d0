/* The fields of a record by the names that the texts have for them. */
#ifndef SCENARIOS_FIELDS_H
#define SCENARIOS_FIELDS_H

#include <stdbool.h>

#include "board.h"

/* Sets the field that a statement names, as in `EPC 1000` or `R3 0x99`; false where it names none. */
bool set_field(struct board_record *record, const char *statement);

/* Writes the field of a name with its value, as in `R3 0x99`; false where there is none. */
bool write_field(const struct board_record *record, const char *name);

/* Writes every field that changed, with its new value and a comma; false where none did. */
bool tell_fields(const struct board_record *before, const struct board_record *after);

#endif
