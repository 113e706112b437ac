import java.sql.*;

/**
 * A database in Java's own process by lines: a register is a row, and each thread has a connection. `Rows URL LEVEL [WORDS..]`: LEVEL is a number
 * of java.sql.Connection; WORDS are statements of the database that come first.
 */
class Rows extends Lines {
    final Connection link;
    final PreparedStatement get, put;

    Rows(Connection link, int level) throws SQLException {
        this.link = link;
        link.setTransactionIsolation(level);
        link.setAutoCommit(false);
        get = link.prepareStatement("SELECT v FROM registers WHERE k = ?");
        put = link.prepareStatement("UPDATE registers SET v = ? WHERE k = ?");
    }

    String answer(String[] words) throws SQLException {
        try {
            switch (words[1]) {
            case "R":
                get.setInt(1, Integer.parseInt(words[2]));
                try (ResultSet row = get.executeQuery()) { // (one that isn't closed may hold a lock)
                    row.next();
                    return "V " + row.getLong(1);
                }
            case "W":
                put.setLong(1, Long.parseLong(words[3]));
                put.setInt(2, Integer.parseInt(words[2]));
                put.executeUpdate();
                return "K";
            case "T":
                link.commit();
                return "C";
            }
        } catch (SQLException failure) {
            // a refusal is of class 40; in H2 also a lock's timeout, and a row that another has changed or undoes
            if (!failure.getMessage().contains("ROLLING_BACK") && !("" + failure.getSQLState()).matches("40.*|HYT00|90131"))
                throw failure;
        }
        link.rollback();
        return "A";
    }

    public static void main(String[] given) throws Exception {
        Statement db = DriverManager.getConnection(given[0]).createStatement();
        for (int i = 2; i < given.length; i++)
            db.execute(given[i]);
        db.execute("CREATE TABLE registers (k INT PRIMARY KEY, v BIGINT)");
        Rows[] rows = new Rows[8];
        for (int i = 0; i < 8; i++) {
            db.execute("INSERT INTO registers VALUES (" + i + ", 0)");
            rows[i] = new Rows(DriverManager.getConnection(given[0]), Integer.parseInt(given[1]));
        }
        serve(rows);
    }
}
