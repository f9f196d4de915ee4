/* Reads the reply that a file holds so many times, as a plain C program does: the yardstick of bench/replies.
 * The lines of a head by memchr, its fields kept as pointers, a chunk's size by strtoull, data copied once. It
 * checks no more than it needs. */
#include <stdio.h>
#include <stdlib.h>
#include <string.h>
#include <strings.h>

struct field { const char *name, *value; size_t name_len, value_len; };

struct reply { int code, chunked, fields; long long length; struct field field[100]; };

/* Reads a head; answers where it ends, or nothing. */
static const char *head(const char *at, const char *end, struct reply *reply)
{
	const char *line = memchr(at, '\n', end - at);
	if (!line || line - at < 12)
		return NULL;
	reply->code = atoi(at + 9);
	reply->chunked = reply->fields = 0;
	reply->length = -1;
	for (at = line + 1; (line = memchr(at, '\n', end - at)); at = line + 1) {
		size_t len = line - at;
		if (len && at[len - 1] == '\r')
			len--;
		if (!len)
			return line + 1;
		const char *colon = memchr(at, ':', len);
		if (!colon || reply->fields == 100)
			return NULL;
		struct field *field = &reply->field[reply->fields++];
		field->name = at;
		field->name_len = colon - at;
		field->value = colon + 1;
		while (field->value < at + len && *field->value == ' ')
			field->value++;
		field->value_len = at + len - field->value;
		if (field->name_len == 17 && !strncasecmp(at, "Transfer-Encoding", 17))
			reply->chunked = 1;
		if (field->name_len == 14 && !strncasecmp(at, "Content-Length", 14))
			reply->length = atoll(field->value);
	}
	return NULL;
}

/* Reads a reply; answers the length of its body. */
static long long body(const char *at, const char *end, char **made)
{
	struct reply reply;
	do
		if (!(at = head(at, end, &reply)))
			return -1;
	while (reply.code >= 100 && reply.code < 200);
	*made = NULL;
	if (!reply.chunked)
		return reply.length < 0 ? end - at : reply.length <= end - at ? reply.length : -1;
	size_t used = 0;
	*made = malloc(end - at + 1);
	for (;;) {
		char *behind;
		unsigned long long size = strtoull(at, &behind, 16);
		const char *data = memchr(behind, '\n', end - behind);
		if (!data++ || size > (unsigned long long)(end - data))
			return -1;
		if (!size)
			return used;
		memcpy(*made + used, data, size);
		used += size;
		at = data + size + 2;
	}
}

int main(int count, char **words)
{
	FILE *file = fopen(words[1], "rb");
	long times = count > 2 ? atol(words[2]) : 1, size;
	long long len = 0;
	fseek(file, 0, SEEK_END);
	size = ftell(file);
	rewind(file);
	char *bytes = malloc(size + 1);
	if (fread(bytes, 1, size, file) != (size_t)size)
		return 1;
	bytes[size] = 0;
	while (times--) {
		char *made;
		len = body(bytes, bytes + size, &made);
		free(made);
	}
	printf("%ld bytes: body %lld\n", size, len);
	return 0;
}
