#include "report.h"

#include <openssl/err.h>
#include <stdarg.h>
#include <stdio.h>
#include <string.h>

enum { MOST_OCTETS = 1024 };

/* One write a line, so that lines of several programs in one log stay whole. */
__attribute__((format(printf, 1, 0)))
static void write_line(const char *format, va_list values, const char *cause)
{
    char text[MOST_OCTETS];
    vsnprintf(text, sizeof text, format, values);
    fprintf(stderr, "key-holder: %s%s%s\n", text, *cause ? ": " : "", cause);
}

void report(const char *format, ...)
{
    va_list values;
    va_start(values, format);
    write_line(format, values, "");
    va_end(values);
}

void report_with_cause(const char *format, ...)
{
    char cause[MOST_OCTETS] = "";
    unsigned long fault = ERR_peek_last_error();
    if (fault)
        ERR_error_string_n(fault, cause, sizeof cause);
    ERR_clear_error();
    va_list values;
    va_start(values, format);
    write_line(format, values, cause);
    va_end(values);
}
