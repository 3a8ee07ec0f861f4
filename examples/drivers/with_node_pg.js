// node-postgres (Debian: node-pg): a text without values is a simple query.
const { Client, Pool } = require("pg");

(async () => {
  const at = { host: "127.0.0.1", port: process.argv[2], user: "a", database: "a" };
  const client = new Client(at);
  await client.connect();
  await client.query("CREATE TABLE node (k bigint PRIMARY KEY, v text)");
  await client.query("BEGIN");
  await client.query("INSERT INTO node VALUES (1, " + client.escapeLiteral("it's") + ")");
  await client.query("COMMIT");
  const tell = (name) => (error) => console.log(name, error.code);
  await client.query("INSERT INTO node VALUES (1, NULL)").catch(tell("a key again:"));
  console.log((await client.query("SELECT k, v FROM node")).rows);
  await client.query("SELECT v FROM node WHERE k = $1", [1]).catch(tell("with values:"));
  await client.end();
  const pool = new Pool({ ...at, max: 3 });
  const counts = await Promise.all([1, 2, 3, 4, 5].map(() => pool.query("SELECT count(*) FROM node")));
  console.log(counts.map((result) => result.rows[0].count));
  await pool.end();
})();
