import java.sql.Connection;
import java.sql.DriverManager;
import java.sql.PreparedStatement;
import java.sql.ResultSet;
import java.sql.SQLException;
import java.sql.Statement;

/**
 * One thread and two connections to H2: does a new transaction see what was committed before it began?
 *
 *     Stale LEVEL [OPTIONS]
 *
 * LEVEL is a number of java.sql.Connection; OPTIONS follow the URL, as ";OPTIMIZE_REUSE_RESULTS=FALSE". The status is 1 if it does not.
 */
class Stale {
    static final long COMMITTED = 7;

    static long read(PreparedStatement get, int place) throws SQLException {
        get.setInt(1, place);
        try (ResultSet rows = get.executeQuery()) {
            rows.next();
            return rows.getLong(1);
        }
    }

    static Connection connect(String url, int level) throws SQLException {
        Connection link = DriverManager.getConnection(url);
        link.setTransactionIsolation(level);
        link.setAutoCommit(false);
        return link;
    }

    public static void main(String[] words) throws SQLException {
        String url = "jdbc:h2:mem:stale" + (words.length > 1 ? words[1] : "");
        Connection first = connect(url, Integer.parseInt(words[0])), second = connect(url, Integer.parseInt(words[0]));
        try (Statement statement = first.createStatement()) {
            statement.execute("CREATE TABLE registers (place INT PRIMARY KEY, amount BIGINT)");
            statement.execute("INSERT INTO registers VALUES (0, 0), (1, 0)");
        }
        first.commit();
        PreparedStatement get = first.prepareStatement("SELECT amount FROM registers WHERE place = ?");
        PreparedStatement put = second.prepareStatement("UPDATE registers SET amount = " + COMMITTED + " WHERE place = 1");
        System.out.println("first begins, and reads 0: " + read(get, 0));
        put.executeUpdate();
        second.commit();
        System.out.println("second sets 1 to " + COMMITTED + ", and commits");
        System.out.println("first reads 1: " + read(get, 1));
        first.rollback();
        long seen = read(get, 1);
        System.out.println("first rolls back, begins anew, and reads 1: " + seen);
        System.exit(seen == COMMITTED ? 0 : 1);
    }
}
