/* Classes of characters, in the locale "C". */
#include <ctype.h>

static int between(int c, int low, int high) { return c >= low && c <= high; }

int isascii(int c) { return between(c, 0, 127); }
int isupper(int c) { return between(c, 'A', 'Z'); }
int islower(int c) { return between(c, 'a', 'z'); }
int isdigit(int c) { return between(c, '0', '9'); }
int isalpha(int c) { return isupper(c) || islower(c); }
int isalnum(int c) { return isalpha(c) || isdigit(c); }
int isblank(int c) { return c == ' ' || c == '\t'; }
int iscntrl(int c) { return between(c, 0, 31) || c == 127; }
int isgraph(int c) { return between(c, 33, 126); }
int isprint(int c) { return between(c, 32, 126); }
int ispunct(int c) { return isgraph(c) && !isalnum(c); }
int isspace(int c) { return c == ' ' || between(c, '\t', '\r'); }
int isxdigit(int c) { return isdigit(c) || between(c, 'A', 'F') || between(c, 'a', 'f'); }
int toascii(int c) { return c & 127; }
int tolower(int c) { return isupper(c) ? c + 'a' - 'A' : c; }
int toupper(int c) { return islower(c) ? c + 'A' - 'a' : c; }
