import java.io.File;
import java.io.PrintStream;
import java.util.StringJoiner;
import org.apache.avro.file.DataFileReader;
import org.apache.avro.generic.GenericDatumReader;
import org.apache.avro.generic.GenericRecord;

/** Prints a line for each Avro file: its records as a JSON array, or as a JSON text what is wrong. */
public class ReadAvro {
    public static void main(String[] paths) throws Exception {
        PrintStream out = new PrintStream(System.out, false, "UTF-8");
        for (String path : paths) {
            out.println(line(path));
        }
        out.flush();
    }

    private static String line(String path) {
        StringJoiner records = new StringJoiner(", ", "[", "]");
        try (DataFileReader<GenericRecord> held = new DataFileReader<>(new File(path), new GenericDatumReader<>())) {
            while (held.hasNext()) {
                records.add(held.next().toString());
            }
            return records.toString();
        } catch (Exception fault) {
            return "\"" + fault.toString().replaceAll("[^ -!#-\\[\\]-~]", "?") + "\"";
        }
    }
}
