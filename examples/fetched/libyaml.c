/* The events of a text with LibYAML. */
#include <stdio.h>
#include <string.h>
#include <yaml.h>

int main(void) {
    static const unsigned char text[] = "name: offloader\nparts: [device, server]\nlimits:\n  steps: 100\n  note: \"a \\u00e9\"\n";
    yaml_parser_t parser;
    yaml_event_t event;
    int ended = 0;
    if (!yaml_parser_initialize(&parser))
        return 1;
    yaml_parser_set_input_string(&parser, text, sizeof text - 1);
    while (!ended && yaml_parser_parse(&parser, &event)) {
        printf("%d %s\n", event.type, event.type == YAML_SCALAR_EVENT ? (char *)event.data.scalar.value : "");
        ended = event.type == YAML_STREAM_END_EVENT;
        yaml_event_delete(&event);
    }
    yaml_parser_delete(&parser);
    return !ended;
}
