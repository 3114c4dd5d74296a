/* What keeps the key inside the process, and a hanging device from keeping it. */
#ifndef PROCESS_H
#define PROCESS_H

/* Has no core file and no other process of its account show its memory, and none of it go out to a swap file, where
 * the limit on locked memory allows that; else that is told. Signals that end the program wait from then on. */
void prepare_process(void);

/* Has the process end with a fault, told, if neither is called again within so many seconds. */
void expect_device(unsigned seconds);
void expect_nothing(void);

#endif
