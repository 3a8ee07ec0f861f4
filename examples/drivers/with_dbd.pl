# Perl's DBD::Pg (Debian: libdbd-pg-perl): with pg_server_prepare => 0 values are written into the text.
use strict;
use warnings;
use DBI;

my $db = DBI->connect("dbi:Pg:host=127.0.0.1;port=$ARGV[0];dbname=a", "a", "", { RaiseError => 1, PrintError => 0, pg_server_prepare => 0 });
$db->do("CREATE TABLE perl (k bigint PRIMARY KEY, v text)");
$db->begin_work;
$db->do("INSERT INTO perl VALUES (?, ?)", undef, 1, "it's");
$db->commit;
$db->begin_work;
eval { $db->do("INSERT INTO perl VALUES (?, ?)", undef, 1, undef); } or print "a key again: ", $db->state, "\n";
$db->rollback;
my $rows = $db->prepare("SELECT k, v FROM perl WHERE k = ?");
$rows->execute(1);
print join(", ", @$_), "\n" for @{ $rows->fetchall_arrayref };
$db->disconnect;
