import java.io.BufferedReader;
import java.io.InputStreamReader;
import java.sql.DriverManager;

/** Runs statements of SQL, one a line of the input: {@code Database URL}. */
public final class Database {
    public static void main(String[] words) throws Exception {
        try (var connection = DriverManager.getConnection(words[0], "SA", ""); var statement = connection.createStatement()) {
            var lines = new BufferedReader(new InputStreamReader(System.in));
            for (String line; (line = lines.readLine()) != null; ) {
                statement.execute(line);
            }
        }
    }
}
