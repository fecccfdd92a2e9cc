/* What the hypervisor prints: on the guest's own serial line, a PL011. */
#include <stdarg.h>

#include "hypervisor.h"

static void put(char c)
{
    while (device_read(UART + 0x18, 4) & 1 << 5) /* the FIFO is full */
        ;
    device_write(UART, 4, (unsigned char)c);
}

static void put_number(uint64_t number, unsigned base)
{
    char digits[20];
    int count = 0;

    do
        digits[count++] = "0123456789abcdef"[number % base];
    while (number /= base);
    while (count)
        put(digits[--count]);
}

void print(const char *format, ...)
{
    va_list list;

    va_start(list, format);
    for (; *format; format++) {
        if (*format != '%') {
            if (*format == '\n')
                put('\r');
            put(*format);
            continue;
        }
        switch (*++format) {
        case 'u':
            put_number(va_arg(list, uint64_t), 10);
            break;
        case 'x':
            put_number(va_arg(list, uint64_t), 16);
            break;
        case 's':
            for (const char *text = va_arg(list, const char *); *text; text++)
                put(*text);
        }
    }
    va_end(list);
}

/* For what can't go on. */
void stop(const char *why, uint64_t number)
{
    print("hypervisor: stopped: %s 0x%x\n", why, number);
    smc(0x84000008, 0, 0, 0);
    for (;;)
        ;
}
