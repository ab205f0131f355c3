/* Reads a YAML file with libyaml into its document trees, and says whether it has any. */
#include <stdio.h>
#include <stdlib.h>
#include <yaml.h>

int main(int argc, char **argv) {
  if (argc != 2) return 2;
  FILE *file = fopen(argv[1], "rb");
  if (!file) return 3;
  yaml_parser_t parser;
  if (!yaml_parser_initialize(&parser)) return 1;
  yaml_parser_set_input_file(&parser, file);
  for (;;) {
    yaml_document_t document;
    if (!yaml_parser_load(&parser, &document)) {
      printf("refused: line %zu\n", parser.problem_mark.line + 1);
      return 1;
    }
    int is_end = !yaml_document_get_root_node(&document);
    yaml_document_delete(&document);
    if (is_end) break;
  }
  yaml_parser_delete(&parser);
  fclose(file);
  printf("read\n");
  return 0;
}
