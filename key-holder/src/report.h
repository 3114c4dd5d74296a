/* Lines on standard error, for whoever runs the key holder, and the program's status. No line tells anything of a key
 * but its kind. */
#ifndef REPORT_H
#define REPORT_H

/* how the program ends: a manager of services starts it again after a fault alone */
enum status { WELL, FAULT, BAD_WORDS, CERTIFICATE_ENDED, WRONG_PIN };

/* Writes `key-holder: `, the text that the format and what follows it make, and the end of the line. */
void report(const char *format, ...) __attribute__((format(printf, 1, 2)));

/* As `report`, with what libcrypto says of its latest faults behind it. Its queue of faults is empty then. */
void report_with_cause(const char *format, ...) __attribute__((format(printf, 1, 2)));

#endif
