# ruby-pg (Debian: ruby-pg): exec with a text alone is a simple query.
require "pg"

connection = PG.connect(host: "127.0.0.1", port: ARGV[0], user: "a", dbname: "a")
connection.exec("CREATE TABLE ruby (k bigint PRIMARY KEY, v text)")
connection.transaction { |c| c.exec("INSERT INTO ruby VALUES (1, '#{c.escape_string("it's")}')") }
begin
  connection.transaction { |c| c.exec("INSERT INTO ruby VALUES (1, NULL)") }
rescue PG::UniqueViolation => error
  puts "a key again: #{error.result.error_field(PG::Result::PG_DIAG_SQLSTATE)}"
end
p connection.exec("SELECT k, v FROM ruby").to_a
begin
  connection.exec_params("SELECT $1", [1])
rescue PG::Error => error
  puts "exec_params: #{error.result.error_field(PG::Result::PG_DIAG_SQLSTATE)}"
end
p connection.exec("SELECT count(*) FROM ruby").values
connection.close
