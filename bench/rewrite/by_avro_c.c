/* The same by Debian's avro-c (libavro-dev): its reader and its writer together, value after value, in blocks of 64 KiB. The
   words are the file that is read, and the file that is written. */
#include <avro.h>
#include <stdio.h>
#include <stdlib.h>

static void check(int code)
{
    if (code) {
        fprintf(stderr, "%s\n", avro_strerror());
        exit(1);
    }
}

int main(int argc, char **argv)
{
    avro_file_reader_t reader;
    avro_file_writer_t writer;
    avro_schema_t schema;
    avro_value_iface_t *kind;
    avro_value_t row;
    int code;

    if (argc != 3)
        return 1;
    check(avro_file_reader(argv[1], &reader));
    schema = avro_file_reader_get_writer_schema(reader);
    kind = avro_generic_class_from_schema(schema);
    check(avro_generic_value_new(kind, &row));
    remove(argv[2]);
    check(avro_file_writer_create_with_codec(argv[2], schema, &writer, "null", 1 << 16));
    while ((code = avro_file_reader_read_value(reader, &row)) == 0) {
        check(avro_file_writer_append_value(writer, &row));
        check(avro_value_reset(&row));
    }
    check(avro_file_writer_close(writer));
    return code == EOF ? 0 : 1;
}
