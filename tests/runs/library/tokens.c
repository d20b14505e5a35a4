/* The attributes that gumbo reads in documents, which tokens.py compares with the attributes that urlcheck.documents reads. A document is
 * its length in bytes and a line feed, then its bytes; of each attribute of a tag a line is written, and of each document's
 * end an empty one. */
#include <gumbo.h>
#include <stdio.h>
#include <stdlib.h>

/* NAME PLACE VALUE LENGTH: where the name is, and where the value is within its quotes, if it has one. */
static void say(const GumboAttribute *attribute, const char *document) {
    GumboStringPiece value = attribute->original_value;
    int is_quoted = value.length > 1 && (value.data[0] == '"' || value.data[0] == '\'');

    printf("%s %td", attribute->name, attribute->original_name.data - document);
    /* (where there is no value it points at the name) */
    if (value.length && value.data != attribute->original_name.data)
        printf(" %td %zu", value.data + is_quoted - document, value.length - (size_t)(2 * is_quoted));
    putchar('\n');
}

static void walk(const GumboNode *node, const char *document) {
    const GumboElement *element = &node->v.element;

    if (node->type != GUMBO_NODE_ELEMENT && node->type != GUMBO_NODE_TEMPLATE) return;
    for (unsigned int at = 0; at < element->attributes.length; at++) say(element->attributes.data[at], document);
    for (unsigned int at = 0; at < element->children.length; at++) walk(element->children.data[at], document);
}

int main(void) {
    size_t length;

    while (scanf("%zu", &length) == 1 && getchar() == '\n') {
        char *document = malloc(length + 1);
        if (!document || fread(document, 1, length, stdin) != length) return 1;
        GumboOutput *output = gumbo_parse_with_options(&kGumboDefaultOptions, document, length);
        walk(output->root, document);
        putchar('\n');
        gumbo_destroy_output(&kGumboDefaultOptions, output);
        free(document);
    }
    return 0;
}
