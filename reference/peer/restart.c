// SPDX-License-Identifier: MIT OR Apache-2.0
/* In a file of its own, so that a call of it is a call. */
#include "keyboard.h"

void kb_restart(void) { kb_start(); }
