import java.io.BufferedReader;
import java.io.InputStreamReader;
import java.nio.charset.StandardCharsets;
import java.util.ArrayList;
import java.util.List;
import org.apache.avro.Schema;
import org.apache.avro.file.DataFileWriter;
import org.apache.avro.generic.GenericData;
import org.apache.avro.generic.GenericDatumWriter;
import org.codehaus.jackson.JsonNode;
import org.codehaus.jackson.map.ObjectMapper;

/** The same by Debian's libavro-java and its jackson: the word is the schema, standard input are the lines. */
public class LinesToAvro {
    static Object value(Schema schema, JsonNode node) {
        switch (schema.getType()) {
            case BOOLEAN: return node.getBooleanValue();
            case INT: return node.getIntValue();
            case LONG: return node.getLongValue();
            case STRING: return node.getTextValue();
            case UNION: return node == null || node.isNull() ? null : value(schema.getTypes().get(1), node);
            case ARRAY: return list(schema, node);
            case RECORD: return record(schema, node);
            default: throw new IllegalArgumentException(schema.toString());
        }
    }

    static List<Object> list(Schema schema, JsonNode node) {
        List<Object> items = new ArrayList<>(node.size());
        for (JsonNode item : node) {
            items.add(value(schema.getElementType(), item));
        }
        return items;
    }

    static GenericData.Record record(Schema schema, JsonNode node) {
        GenericData.Record made = new GenericData.Record(schema);
        for (Schema.Field field : schema.getFields()) {
            made.put(field.pos(), value(field.schema(), node.get(field.name())));
        }
        return made;
    }

    public static void main(String[] words) throws Exception {
        Schema schema = new Schema.Parser().parse(words[0]);
        ObjectMapper mapper = new ObjectMapper();
        BufferedReader source = new BufferedReader(new InputStreamReader(System.in, StandardCharsets.UTF_8), 1 << 16);
        try (DataFileWriter<Object> writer = new DataFileWriter<>(new GenericDatumWriter<Object>(schema))) {
            writer.setSyncInterval(1 << 16);
            writer.create(schema, System.out);
            String line;
            while ((line = source.readLine()) != null) {
                writer.append(record(schema, mapper.readTree(line)));
            }
        }
    }
}
