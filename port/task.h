// The database as a task of a firmware that has other work to do. It runs on a stack of its own until it needs a byte of the
// line. Then the firmware continues, and feeds it the next byte when that has arrived.
//
//     int status = task_begin();                       // opens the flash
//     while (status == TASK_WAITS) {
//         ..                                           // the firmware's other work
//         if (a byte has come) status = task_feed(the byte);
//     }
//
// When `task_feed` returns, the reply to this byte, if there is one, has been written through `board_put`.
#pragma once

enum { TASK_WAITS = -1 };

// Starts the program on the task's stack. Returns its status, or that it waits for a byte.
int task_begin(void);
// Continues with a byte. Returns the same.
int task_feed(int byte);
// What `board_take` returns on such a board.
int task_next_byte(void);
