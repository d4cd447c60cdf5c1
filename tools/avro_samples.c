/* Writes a file of cards by Debian's avro-c (libavro-dev), with blocks of one row and of two. The word is the file's name.
   `avro_samples.py` builds and runs it. */
#include <avro.h>
#include <stdio.h>
#include <stdlib.h>

static const char SCHEMA[] =
    "{\"type\":\"record\",\"name\":\"Card\",\"namespace\":\"org.cards\",\"doc\":\"A card.\",\"fields\":["
    "{\"name\":\"suit\",\"type\":{\"type\":\"enum\",\"name\":\"Suit\",\"namespace\":\"org.suits\",\"doc\":\"Its suit.\","
    "\"symbols\":[\"SPADES\",\"HEARTS\"]}},"
    "{\"name\":\"id\",\"type\":{\"type\":\"fixed\",\"name\":\"Id\",\"namespace\":\"org.cards\",\"size\":2}},"
    "{\"name\":\"note\",\"type\":[\"null\",\"string\"],\"default\":null},"
    "{\"name\":\"played\",\"type\":\"long\"}]}";

/* avro-c makes the sync marker of these numbers: with them it is `0123456789abcdef` each time. */
int rand(void)
{
    static const char marker[] = "0123456789abcdef";
    static int at = 0;
    return (int)((marker[at++ % 16] + 0.5) / 255.0 * (RAND_MAX + 1.0));
}

static void check(int code)
{
    if (code) {
        fprintf(stderr, "%s\n", avro_strerror());
        exit(1);
    }
}

static void append(avro_file_writer_t writer, avro_value_t *card, int suit, const char *id, const char *note, int64_t played)
{
    avro_value_t field, branch;
    check(avro_value_get_by_name(card, "suit", &field, NULL));
    check(avro_value_set_enum(&field, suit));
    check(avro_value_get_by_name(card, "id", &field, NULL));
    check(avro_value_set_fixed(&field, (void *)id, 2));
    check(avro_value_get_by_name(card, "note", &field, NULL));
    check(avro_value_set_branch(&field, note ? 1 : 0, &branch));
    check(note ? avro_value_set_string(&branch, note) : avro_value_set_null(&branch));
    check(avro_value_get_by_name(card, "played", &field, NULL));
    check(avro_value_set_long(&field, played));
    check(avro_file_writer_append_value(writer, card));
}

int main(int argc, char **argv)
{
    avro_schema_t schema;
    avro_value_iface_t *kind;
    avro_value_t card;
    avro_file_writer_t writer;

    if (argc != 2)
        return 1;
    check(avro_schema_from_json_literal(SCHEMA, &schema));
    kind = avro_generic_class_from_schema(schema);
    check(avro_generic_value_new(kind, &card));
    remove(argv[1]);
    check(avro_file_writer_create(argv[1], schema, &writer));
    append(writer, &card, 1, "ab", "first", 64);
    check(avro_file_writer_sync(writer));
    append(writer, &card, 0, "cd", NULL, -1);
    append(writer, &card, 1, "ef", "third", 1700000000000);
    check(avro_file_writer_close(writer));
    return 0;
}
