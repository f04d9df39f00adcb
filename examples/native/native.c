/* A library for `plhost native`: each function takes numbers and gives one. ./calls has the calls that show it. */
#include "host.h"

typedef unsigned char byte;
typedef unsigned int word;
typedef unsigned long number;

/* CRC-32 as in ISO 3309, by a table that a constructor fills. */
static word crc_table[256];

__attribute__((constructor)) static void fill_crc_table(void)
{
    for (word n = 0; n < 256; n++) {
        word rest = n;
        for (int bit = 0; bit < 8; bit++)
            rest = rest & 1 ? rest >> 1 ^ 0xEDB88320u : rest >> 1;
        crc_table[n] = rest;
    }
}

static word crc_of(const byte *bytes, size_t count)
{
    word crc = 0xFFFFFFFFu;
    for (size_t i = 0; i < count; i++)
        crc = crc_table[(crc ^ bytes[i]) & 0xFF] ^ crc >> 8;
    return ~crc;
}

/* The checksum of the digits 1 to 9. */
number checksum_of_digits(void)
{
    return crc_of((const byte *)"123456789", 9);
}

/* The checksum of `count` bytes that go up from `first`. */
number checksum(number first, number count)
{
    byte *bytes = malloc(count);
    if (!bytes)
        return 0;
    for (size_t i = 0; i < count; i++)
        bytes[i] = (byte)(first + i);
    word sum = crc_of(bytes, count);
    free(bytes);
    return sum;
}

/* The next of a row of numbers that look like chance. */
static number next_of(number x)
{
    return x * 6364136223846793005ul + 1442695040888963407ul;
}

static void merge(number *numbers, number *spare, size_t middle, size_t count)
{
    size_t low = 0, high = middle, at = 0;
    while (low < middle || high < count) {
        int takes_low = high == count || (low < middle && numbers[low] <= numbers[high]);
        spare[at++] = takes_low ? numbers[low++] : numbers[high++];
    }
    memcpy(numbers, spare, count * sizeof *numbers);
}

static void sort(number *numbers, number *spare, size_t count)
{
    if (count < 2)
        return;
    size_t middle = count / 2;
    sort(numbers, spare, middle);
    sort(numbers + middle, spare, count - middle);
    merge(numbers, spare, middle, count);
}

/* Of `count` numbers that follow a seed, sorted, the one at a place; the numbers are kept in a block that grows. */
number sorted_at(number seed, number count, number at)
{
    number *numbers = 0;
    size_t room = 0;
    for (size_t i = 0; i < count; i++) {
        if (i == room) {
            room = room ? 2 * room : 4;
            numbers = realloc(numbers, room * sizeof *numbers);
        }
        numbers[i] = seed = next_of(seed);
    }
    number *spare = calloc(count, sizeof *spare);
    sort(numbers, spare, count);
    number found = at < count ? numbers[at] : 0;
    free(spare);
    free(numbers);
    return found;
}

/* Writes a number in decimal digits, and gives how many there are. */
static size_t write_decimal(char *to, number n)
{
    char digits[20];
    size_t count = 0;
    do
        digits[count++] = (char)('0' + n % 10);
    while (n /= 10);
    for (size_t i = 0; i < count; i++)
        to[i] = digits[count - 1 - i];
    to[count] = 0;
    return count;
}

static const char *const rivers[] = {"danube", "elbe", "rhine", "spree"};

/* Where the digits of a number stand first among those of another; all ones where they stand nowhere. */
number place_of_digits(number among, number wanted)
{
    char text[21], word[21];
    size_t length = write_decimal(text, among), size = write_decimal(word, wanted);
    for (size_t at = 0; at + size <= length; at++)
        if (memcmp(text + at, word, size) == 0)
            return at;
    return -1ul;
}

/* How two of the names compare: the sign, as a number. */
number compare_names(number one, number other)
{
    int order = strcmp(rivers[one % 4], rivers[other % 4]);
    return (number)(long)((order > 0) - (order < 0));
}

/* The length of a name said `times` times over. */
number repeated_length(number name, number times)
{
    const char *river = rivers[name % 4];
    size_t size = strlen(river);
    char *text = malloc(size * times + 1);
    text[0] = 0;
    for (size_t i = 0; i < times; i++)
        strcpy(text + i * size, river);
    number length = strlen(text);
    free(text);
    return length;
}

/* The function of Ackermann and Peter. */
number ackermann(number m, number n)
{
    if (m == 0)
        return n + 1;
    if (n == 0)
        return ackermann(m - 1, 1);
    return ackermann(m - 1, ackermann(m, n - 1));
}

/* What errno is after it was set. */
number set_errno(number value)
{
    *__errno_location() = (int)value;
    return (number)(long)*__errno_location();
}

/* Moves the front of a row over itself, and gives the checksum of what stands there then. */
number overlapped(number count, number by)
{
    byte *row = malloc(count + by);
    for (size_t i = 0; i < count + by; i++)
        row[i] = (byte)i;
    memmove(row + by, row, count);
    memset(row, 0xA5, by);
    number sum = crc_of(row, count + by);
    free(row);
    return sum;
}

/* Signed and unsigned division, with remainders, in one number; 0 for the divisors with which C leaves one of them open. */
number divisions(number a, number b)
{
    if (b == 0 || b == -1ul)
        return 0;
    long quotient = (long)a / (long)b, rest = (long)a % (long)b;
    word narrow = (word)a / ((word)b | 1), narrow_rest = (word)a % ((word)b | 1);
    return (number)quotient * 31 + (number)rest * 17 + a / b + a % b + narrow * 7ul + narrow_rest;
}

/* Adds eight numbers, each with a weight of its place. */
number eight(number a, number b, number c, number d, number e, number f, number g, number h)
{
    return a + 2 * b + 3 * c + 4 * d + 5 * e + 6 * f + 7 * g + 8 * h;
}
