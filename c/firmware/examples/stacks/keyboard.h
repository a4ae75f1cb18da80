// SPDX-License-Identifier: MIT OR Apache-2.0
/* What both examples have: a keyboard that main starts, and the task of its loop. */
#ifndef KEYBOARD_H
#define KEYBOARD_H

#include "wuzhikar.h"

extern wz_keyboard keyboard;

void keyboard_task(void);

#endif
