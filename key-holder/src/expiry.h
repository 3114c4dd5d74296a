/* The end of the certificate, after which nothing is signed. */
#ifndef EXPIRY_H
#define EXPIRY_H

#include "certificate.h"

/* Opens a timer that is readable when the certificate's end has to be told of again: 30 days before it, each day from
 * then on, and when it has come. The present one is told. A fault is told, and answered by -1. */
int open_expiry(const struct certificate *certificate);

/* Tells again how many days are left, and has the timer wait for the next time. */
void tell_expiry(int timer, const struct certificate *certificate);

#endif
