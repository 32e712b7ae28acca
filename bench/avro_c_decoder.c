/* Decodes the records of a container by Avro C, from memory, and says how many these were and the sum of
   their first fields. */
#include <avro.h>
#include <stdio.h>
#include <stdlib.h>

/* The whole of a file, whose size is told. */
static char *whole(const char *name, size_t *size)
{
    FILE *file = fopen(name, "rb");
    char *bytes = NULL;
    if (file != NULL && fseek(file, 0, SEEK_END) == 0) {
        *size = (size_t)ftell(file);
        rewind(file);
        bytes = malloc(*size);
        if (bytes != NULL && fread(bytes, 1, *size, file) != *size) {
            bytes = NULL;
        }
        fclose(file);
    }
    return bytes;
}

/* Decodes each record into one value, and adds up the first fields. */
static int decode(avro_file_reader_t reader, long long *rows, long long *sum)
{
    avro_value_iface_t *type = avro_generic_class_from_schema(avro_file_reader_get_writer_schema(reader));
    avro_value_t record, first;
    int64_t number;
    if (avro_generic_value_new(type, &record) != 0) {
        return 1;
    }
    while (avro_file_reader_read_value(reader, &record) == 0) {
        if (avro_value_get_by_index(&record, 0, &first, NULL) != 0 || avro_value_get_long(&first, &number) != 0) {
            return 1;
        }
        *sum += number;
        *rows += 1;
        avro_value_reset(&record);
    }
    return 0;
}

int main(int count, char **words)
{
    size_t size = 0;
    long long rows = 0, sum = 0;
    char *bytes = count == 2 ? whole(words[1], &size) : NULL;
    FILE *file = bytes != NULL ? fmemopen(bytes, size, "rb") : NULL;
    avro_file_reader_t reader;
    if (file == NULL || avro_file_reader_fp(file, "memory", 0, &reader) != 0 || decode(reader, &rows, &sum) != 0) {
        fprintf(stderr, "%s\n", avro_strerror());
        return 1;
    }
    printf("%lld %lld\n", rows, sum);
    return 0;
}
