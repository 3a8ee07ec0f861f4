// JDBC (Debian: libpostgresql-jdbc-java): preferQueryMode=simple.
import java.sql.*;

class WithJdbc {
    static void refused(Connection connection, String name, String text, Object value) throws SQLException {
        try (PreparedStatement statement = connection.prepareStatement(text)) {
            if (value != null) statement.setObject(1, value);
            statement.execute();
            System.out.println(name + " done");
        } catch (SQLException refusal) {
            System.out.println(name + " " + refusal.getSQLState());
            if (!connection.getAutoCommit()) connection.rollback();
        }
    }

    public static void main(String[] words) throws Exception {
        String address = "jdbc:postgresql://127.0.0.1:" + words[0] + "/a?user=a";
        Connection connection = DriverManager.getConnection(address + "&preferQueryMode=simple");
        Statement statement = connection.createStatement();
        statement.execute("CREATE TABLE jdbc (k bigint PRIMARY KEY, v text)");
        connection.setAutoCommit(false);
        statement.execute("INSERT INTO jdbc VALUES (1, 'one')");
        connection.commit();
        refused(connection, "a key again:", "INSERT INTO jdbc VALUES (1, NULL)", null);
        refused(connection, "a text as a parameter:", "INSERT INTO jdbc VALUES (2, ?)", "it's");
        connection.commit();
        refused(connection, "a number as a parameter:", "SELECT v FROM jdbc WHERE k = ?", 1L);
        statement.addBatch("INSERT INTO jdbc VALUES (3, 'c')");
        statement.addBatch("INSERT INTO jdbc VALUES (4, 'd')");
        System.out.println("batch: " + statement.executeBatch().length);
        connection.commit();
        ResultSet rows = statement.executeQuery("SELECT k, v FROM jdbc WHERE k < 3");
        while (rows.next()) System.out.println(rows.getLong("k") + " " + rows.getString("v"));
        connection.close();
        try {
            DriverManager.getConnection(address).close();
        } catch (SQLException refusal) {
            System.out.println("in the default mode: " + refusal.getSQLState());
        }
    }
}
