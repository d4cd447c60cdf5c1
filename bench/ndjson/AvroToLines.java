import java.io.BufferedOutputStream;
import java.io.PrintStream;
import org.apache.avro.file.DataFileStream;
import org.apache.avro.generic.GenericDatumReader;
import org.apache.avro.generic.GenericRecord;

/** Writes the rows of the Avro file on standard input as JSON lines, by Java's avro. */
public class AvroToLines {
    public static void main(String[] words) throws Exception {
        try (DataFileStream<GenericRecord> rows = new DataFileStream<>(System.in, new GenericDatumReader<>());
                PrintStream out = new PrintStream(new BufferedOutputStream(System.out, 1 << 16), false, "UTF-8")) {
            GenericRecord row = null;
            while (rows.hasNext()) {
                row = rows.next(row);
                out.println(row);
            }
        }
    }
}
