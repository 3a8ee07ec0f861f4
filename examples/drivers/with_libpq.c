/* libpq (Debian: libpq-dev): PQexec is a simple query. cc with_libpq.c -I$(pg_config --includedir) -lpq */
#include <libpq-fe.h>
#include <stdio.h>

static void run(PGconn *connection, const char *text) {
    PGresult *result = PQexec(connection, text);
    const char *code = PQresultErrorField(result, PG_DIAG_SQLSTATE);
    printf("%s: %s", text, code ? code : PQcmdStatus(result));
    for (int row = 0; row < PQntuples(result); row++)
        printf(" (%s, %s)", PQgetvalue(result, row, 0), PQgetvalue(result, row, 1));
    printf("\n");
    PQclear(result);
}

int main(int count, char **words) {
    char address[99];
    snprintf(address, sizeof address, "host=127.0.0.1 port=%s user=a dbname=a", count > 1 ? words[1] : "5433");
    PGconn *connection = PQconnectdb(address);
    if (PQstatus(connection) != CONNECTION_OK) {
        fprintf(stderr, "%s", PQerrorMessage(connection));
        return 1;
    }
    run(connection, "CREATE TABLE libpq (k bigint PRIMARY KEY, v text)");
    run(connection, "BEGIN; INSERT INTO libpq VALUES (1, 'one'); COMMIT");
    run(connection, "BEGIN");
    run(connection, "INSERT INTO libpq VALUES (1, NULL)");
    run(connection, "SELECT k, v FROM libpq");
    run(connection, "ROLLBACK");
    run(connection, "SELECT k, v FROM libpq");
    const char *values[] = {"1"};
    PGresult *result = PQexecParams(connection, "SELECT $1", 1, NULL, values, NULL, NULL, 0);
    printf("PQexecParams: %s\n", PQresultErrorField(result, PG_DIAG_SQLSTATE));
    PQclear(result);
    PQfinish(connection);
    return 0;
}
