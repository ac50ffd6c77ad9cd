/* The elements of a text with Expat. */
#include <stdio.h>
#include <string.h>
#include <expat.h>

static void on_begin(void *data, const char *name, const char **attributes) {
    printf("<%s%s%s ", name, attributes[0] ? " " : "", attributes[0] ? attributes[1] : "");
    ++*(int *)data;
}

static void on_end(void *data, const char *name) { printf("%s%d> ", name, *(int *)data); }

int main(void) {
    static const char text[] = "<a b='1'><c>text &amp; more</c><d/></a>";
    int count = 0;
    XML_Parser parser = XML_ParserCreate(NULL);
    XML_SetUserData(parser, &count);
    XML_SetElementHandler(parser, on_begin, on_end);
    int status = XML_Parse(parser, text, (int)strlen(text), 1);
    printf("%d %d\n", status, count);
    XML_ParserFree(parser);
    return 0;
}
