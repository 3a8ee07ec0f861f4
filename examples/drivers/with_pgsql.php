<?php
// PHP (Debian: php-pgsql): pg_query with a text alone, or PDO with emulated prepares.
$connection = pg_connect("host=127.0.0.1 port=$argv[1] user=a dbname=a");
pg_query($connection, "CREATE TABLE php (k bigint PRIMARY KEY, v text)");
pg_query($connection, "BEGIN; INSERT INTO php VALUES (1, '" . pg_escape_string($connection, "it's") . "'); COMMIT");
pg_send_query($connection, "INSERT INTO php VALUES (1, NULL)");
echo "a key again: ", pg_result_error_field(pg_get_result($connection), PGSQL_DIAG_SQLSTATE), "\n";
while (pg_get_result($connection)) {
}
echo json_encode(pg_fetch_all(pg_query($connection, "SELECT k, v FROM php"))), "\n";
echo "pg_query_params: ", @pg_query_params($connection, 'SELECT $1', [1]) ? "done" : pg_last_error($connection), "\n";

$pdo = new PDO("pgsql:host=127.0.0.1;port=$argv[1];dbname=a", "a", "", [PDO::ATTR_EMULATE_PREPARES => true]);
$pdo->beginTransaction();
$pdo->prepare("INSERT INTO php VALUES (?, ?)")->execute([2, "two"]);
$pdo->commit();
try {
    $pdo->prepare("INSERT INTO php VALUES (?, ?)")->execute([2, null]);
} catch (PDOException $error) {
    echo "PDO, a key again: ", $error->getCode(), "\n";
}
$rows = $pdo->prepare("SELECT v FROM php WHERE k = :k");
$rows->execute(["k" => 2]);
echo "PDO: ", json_encode($rows->fetchAll(PDO::FETCH_ASSOC)), "\n";
