/* Reads a request with Node's parser of HTTP. */
#include <stdio.h>
#include <string.h>
#include <http_parser.h>

static int on_text(http_parser *it, const char *at, size_t n) {
    printf("%.*s|", (int)n, at);
    return it->upgrade;
}

static int on_end(http_parser *it) {
    printf("%s HTTP %d.%d\n", http_method_str(it->method), it->http_major, it->http_minor);
    return 0;
}

int main(void) {
    static const char text[] = "POST /a?b=c HTTP/1.1\r\nHost: example.org\r\nTransfer-Encoding: chunked\r\n\r\n5\r\nhello\r\n0\r\n\r\n";
    http_parser parser;
    http_parser_settings settings;
    http_parser_settings_init(&settings);
    settings.on_url = settings.on_header_field = settings.on_header_value = settings.on_body = on_text;
    settings.on_message_complete = on_end;
    http_parser_init(&parser, HTTP_REQUEST);
    size_t n = http_parser_execute(&parser, &settings, text, strlen(text));
    printf("%u of %u, %s\n", (unsigned)n, (unsigned)strlen(text), http_errno_name(HTTP_PARSER_ERRNO(&parser)));
    return 0;
}
