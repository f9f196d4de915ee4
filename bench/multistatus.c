/* Reads the multistatus reply in a file so many times with expat, and builds the same rows as the crate
   `multistatus`: of each response its hrefs, its status, and of each property its namespace, name, status, text,
   children and hrefs. Prints how many rows there are. For bench/multistatus alone: it checks no more than it needs. */

#include <expat.h>
#include <stdio.h>
#include <stdlib.h>
#include <string.h>

enum { MOST_NESTED = 32, SEPARATOR = '\n' };

enum kind { IGNORED, MULTISTATUS, RESPONSE, HREF, STATUS, PROPSTAT, PROP, PROPERTY, INNER_HREF };

struct text { char *bytes; size_t length, room; };
struct name { char *space, *local; };
struct list { void *items; size_t count, room; };
struct prop { struct name name; int code; char *text; struct list children, hrefs; };
struct row { char *href; int code; struct list props; };

struct reading {
    XML_Parser parser;
    enum kind open[MOST_NESTED];
    size_t depth;
    struct text text, inner;       /* of an href, a status or a property, and of an href in a property */
    struct list rows, hrefs, props; /* of the whole, and of the response that is open */
    size_t first_prop;             /* of the propstat that is open */
    int response_code, prop_code, has_propstat, failed;
};

static void *grown(struct list *list, size_t size)
{
    if (list->count == list->room) {
        list->room = list->room ? 2 * list->room : 4;
        list->items = realloc(list->items, list->room * size);
        if (!list->items)
            exit(1);
    }
    return (char *)list->items + size * list->count++;
}

static char *copy(const char *bytes, size_t length)
{
    char *made = malloc(length + 1);
    if (!made)
        exit(1);
    memcpy(made, bytes, length);
    made[length] = 0;
    return made;
}

static void add(struct text *text, const char *bytes, size_t length)
{
    if (text->length + length > text->room) {
        text->room = 2 * (text->length + length);
        text->bytes = realloc(text->bytes, text->room);
        if (!text->bytes)
            exit(1);
    }
    memcpy(text->bytes + text->length, bytes, length);
    text->length += length;
}

static int is_white(char c) { return c == ' ' || c == '\t' || c == '\n' || c == '\r'; }

static char *trimmed(const struct text *text)
{
    size_t from = 0, to = text->length;
    while (from < to && is_white(text->bytes[from]))
        from++;
    while (from < to && is_white(text->bytes[to - 1]))
        to--;
    return copy(text->bytes + from, to - from);
}

static int code_of(const struct text *text)
{
    char *line = trimmed(text);
    int code = 0;
    if (sscanf(line, "HTTP/%*d.%*d %3d", &code) != 1)
        code = -1;
    free(line);
    return code;
}

static int is_dav(const char *name, const char *local)
{
    return !strncmp(name, "DAV:\n", 5) && !strcmp(name + 5, local);
}

static struct name name_of(const char *name)
{
    const char *mark = strchr(name, SEPARATOR);
    struct name made;
    made.space = mark ? copy(name, mark - name) : copy("", 0);
    made.local = mark ? copy(mark + 1, strlen(mark + 1)) : copy(name, strlen(name));
    return made;
}

static enum kind kind_in(struct reading *r, enum kind parent, const char *name)
{
    switch (parent) {
    case MULTISTATUS: return is_dav(name, "response") ? RESPONSE : IGNORED;
    case RESPONSE: return is_dav(name, "href") ? HREF : is_dav(name, "status") ? STATUS : is_dav(name, "propstat") ? PROPSTAT : IGNORED;
    case PROPSTAT: return is_dav(name, "prop") ? PROP : is_dav(name, "status") ? STATUS : IGNORED;
    case PROP: return PROPERTY;
    case PROPERTY: *(struct name *)grown(&((struct prop *)r->props.items)[r->props.count - 1].children, sizeof(struct name)) = name_of(name);
        return is_dav(name, "href") ? INNER_HREF : IGNORED;
    default: return IGNORED;
    }
}

static void XMLCALL begins(void *data, const char *name, const char **attributes)
{
    struct reading *r = data;
    (void)attributes;
    if (r->depth == MOST_NESTED || (r->depth == 0 && !is_dav(name, "multistatus"))) {
        r->failed = 1;
        XML_StopParser(r->parser, 0);
        return;
    }
    enum kind kind = r->depth ? kind_in(r, r->open[r->depth - 1], name) : MULTISTATUS;
    r->open[r->depth++] = kind;
    if (kind == HREF || kind == STATUS || kind == PROPERTY)
        r->text.length = 0;
    if (kind == INNER_HREF)
        r->inner.length = 0;
    if (kind == PROPERTY) {
        struct prop *prop = grown(&r->props, sizeof *prop);
        memset(prop, 0, sizeof *prop);
        prop->name = name_of(name);
    }
    if (kind == PROPSTAT) {
        r->first_prop = r->props.count;
        r->has_propstat = 1;
        r->prop_code = -1;
    }
    if (kind == RESPONSE) {
        memset(&r->hrefs, 0, sizeof r->hrefs);
        memset(&r->props, 0, sizeof r->props);
        r->response_code = -1;
        r->has_propstat = 0;
    }
}

static void end_response(struct reading *r)
{
    for (size_t i = 0; i < r->hrefs.count; i++) {
        struct row *row = grown(&r->rows, sizeof *row);
        row->href = ((char **)r->hrefs.items)[i];
        row->code = r->response_code;
        row->props = r->props;
    }
    free(r->hrefs.items);
}

static void XMLCALL ends(void *data, const char *name)
{
    struct reading *r = data;
    (void)name;
    switch (r->open[--r->depth]) {
    case HREF: *(char **)grown(&r->hrefs, sizeof(char *)) = trimmed(&r->text); break;
    case STATUS:
        if (r->open[r->depth - 1] == RESPONSE)
            r->response_code = code_of(&r->text);
        else
            r->prop_code = code_of(&r->text);
        break;
    case INNER_HREF: *(char **)grown(&((struct prop *)r->props.items)[r->props.count - 1].hrefs, sizeof(char *)) = trimmed(&r->inner); break;
    case PROPERTY: ((struct prop *)r->props.items)[r->props.count - 1].text = copy(r->text.bytes, r->text.length); break;
    case PROPSTAT:
        for (size_t i = r->first_prop; i < r->props.count; i++)
            ((struct prop *)r->props.items)[i].code = r->prop_code;
        break;
    case RESPONSE: end_response(r); break;
    default: break;
    }
}

static void XMLCALL holds(void *data, const char *bytes, int length)
{
    struct reading *r = data;
    enum kind kind = r->depth ? r->open[r->depth - 1] : IGNORED;
    if (kind == HREF || kind == STATUS || kind == PROPERTY)
        add(&r->text, bytes, length);
    if (kind == INNER_HREF)
        add(&r->inner, bytes, length);
}

static void free_rows(struct reading *r)
{
    for (size_t i = 0; i < r->rows.count; i++) {
        struct row *row = &((struct row *)r->rows.items)[i];
        free(row->href);
        for (size_t j = 0; j < row->props.count; j++) {
            struct prop *prop = &((struct prop *)row->props.items)[j];
            free(prop->name.space);
            free(prop->name.local);
            free(prop->text);
            for (size_t k = 0; k < prop->children.count; k++) {
                free(((struct name *)prop->children.items)[k].space);
                free(((struct name *)prop->children.items)[k].local);
            }
            for (size_t k = 0; k < prop->hrefs.count; k++)
                free(((char **)prop->hrefs.items)[k]);
            free(prop->children.items);
            free(prop->hrefs.items);
        }
        if (row->props.count)
            free(row->props.items);
    }
    free(r->rows.items);
    free(r->text.bytes);
    free(r->inner.bytes);
}

static int read_once(const char *bytes, size_t length, size_t *rows)
{
    struct reading r;
    memset(&r, 0, sizeof r);
    add(&r.text, "", 0);
    r.parser = XML_ParserCreateNS(NULL, SEPARATOR);
    XML_SetUserData(r.parser, &r);
    XML_SetElementHandler(r.parser, begins, ends);
    XML_SetCharacterDataHandler(r.parser, holds);
    int ok = XML_Parse(r.parser, bytes, (int)length, 1) == XML_STATUS_OK && !r.failed;
    XML_ParserFree(r.parser);
    *rows = r.rows.count;
    free_rows(&r);
    return ok;
}

int main(int argc, char **argv)
{
    if (argc != 3)
        return 2;
    FILE *file = fopen(argv[1], "rb");
    if (!file)
        return 2;
    fseek(file, 0, SEEK_END);
    long length = ftell(file);
    rewind(file);
    char *bytes = malloc(length + 1);
    if (!bytes || fread(bytes, 1, length, file) != (size_t)length)
        return 2;
    fclose(file);
    size_t rows = 0;
    for (int i = atoi(argv[2]); i > 0; i--)
        if (!read_once(bytes, length, &rows)) {
            puts("bad reply");
            return 1;
        }
    printf("%zu rows\n", rows);
    free(bytes);
    return 0;
}
