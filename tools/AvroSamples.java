import java.io.File;
import java.io.FileOutputStream;
import java.nio.charset.StandardCharsets;
import java.util.Arrays;
import org.apache.avro.Schema;
import org.apache.avro.file.DataFileReader;
import org.apache.avro.file.DataFileWriter;
import org.apache.avro.generic.GenericData;
import org.apache.avro.generic.GenericDatumReader;
import org.apache.avro.generic.GenericDatumWriter;
import org.apache.avro.generic.GenericRecord;

/**
 * Debian's libavro-java at files of cards. `avro_samples.py` runs it, by these words:
 *
 * <ul>
 * <li>`write FILE` writes a file of blocks of one row and of two, with an entry of its own in the metadata;
 * <li>`copy FILE COPY` copies a file's blocks as they are, also one of no rows, which no writer makes by itself;
 * <li>`show FILE` prints the rows of a file as JSON, a line each;
 * <li>`try FILE..` does so for each file, and prints at its end, or where it is refused, a line of `end` or of `refused` and why.
 * </ul>
 */
public class AvroSamples {
    static final byte[] MARKER = "0123456789abcdef".getBytes(StandardCharsets.US_ASCII);

    static final String SCHEMA =
        "{\"type\":\"record\",\"name\":\"Card\",\"namespace\":\"org.cards\",\"doc\":\"A card.\",\"fields\":["
            + "{\"name\":\"suit\",\"type\":{\"type\":\"enum\",\"name\":\"Suit\",\"namespace\":\"org.suits\",\"doc\":\"Its suit.\","
            + "\"symbols\":[\"SPADES\",\"HEARTS\"]}},"
            + "{\"name\":\"id\",\"type\":{\"type\":\"fixed\",\"name\":\"Id\",\"size\":2}},"
            + "{\"name\":\"note\",\"type\":[\"null\",\"string\"],\"doc\":\"What is said of it.\",\"default\":null},"
            + "{\"name\":\"played\",\"type\":{\"type\":\"long\",\"logicalType\":\"timestamp-millis\"}}]}";

    static void append(DataFileWriter<GenericRecord> writer, Schema schema, String suit, String id, String note, long played)
            throws Exception {
        GenericRecord card = new GenericData.Record(schema);
        card.put("suit", new GenericData.EnumSymbol(schema.getField("suit").schema(), suit));
        card.put("id", new GenericData.Fixed(schema.getField("id").schema(), id.getBytes(StandardCharsets.US_ASCII)));
        card.put("note", note);
        card.put("played", played);
        writer.append(card);
    }

    static DataFileWriter<GenericRecord> created(Schema schema, String name) throws Exception {
        DataFileWriter<GenericRecord> writer = new DataFileWriter<>(new GenericDatumWriter<GenericRecord>(schema));
        writer.setMeta("writer", "AvroSamples");
        return writer.create(schema, new FileOutputStream(new File(name)), MARKER);
    }

    static DataFileReader<GenericRecord> opened(String name) throws Exception {
        return new DataFileReader<>(new File(name), new GenericDatumReader<GenericRecord>());
    }

    static void write(String name) throws Exception {
        Schema schema = new Schema.Parser().parse(SCHEMA);
        try (DataFileWriter<GenericRecord> writer = created(schema, name)) {
            append(writer, schema, "HEARTS", "ab", "first", 64);
            writer.sync();
            append(writer, schema, "SPADES", "cd", null, -1);
            append(writer, schema, "HEARTS", "ef", "third", 1700000000000L);
        }
    }

    static void copy(String from, String to) throws Exception {
        try (DataFileReader<GenericRecord> reader = opened(from); DataFileWriter<GenericRecord> writer = created(reader.getSchema(), to)) {
            writer.appendAllFrom(reader, false);
        }
    }

    static void show(String name) throws Exception {
        try (DataFileReader<GenericRecord> reader = opened(name)) {
            for (GenericRecord card : reader) {
                System.out.println(card);
            }
        }
    }

    static void showEach(String[] names) {
        for (String name : names) {
            try {
                show(name);
                System.out.println("end");
            } catch (Exception error) {
                System.out.println("refused " + error.toString().split("\n")[0]);
            }
        }
    }

    public static void main(String[] words) throws Exception {
        switch (words[0]) {
            case "try": showEach(Arrays.copyOfRange(words, 1, words.length)); break;
            case "write": write(words[1]); break;
            case "copy": copy(words[1], words[2]); break;
            case "show": show(words[1]); break;
            default: throw new IllegalArgumentException(words[0]);
        }
    }
}
