#!/usr/bin/perl
# SQLite by Perl's DBI: a row of the table `registers` is a register.
#
#     registers.pl FILE
use strict; use warnings;
use DBI;
$| = 1;
my $db = DBI->connect("dbi:SQLite:$ARGV[0]", '', '', {RaiseError => 1, PrintError => 0, AutoCommit => 1, sqlite_use_immediate_transaction => 0});
$db->sqlite_busy_timeout(0);
while (<STDIN>) {
    my ($thread, $call, $register, $value) = split;
    my $answer = eval {
        $db->begin_work if $call ne 'X' && $db->{AutoCommit};
        if ($call eq 'R') { return 'V ' . $db->selectrow_array('SELECT v FROM registers WHERE k = ?', undef, $register) }
        if ($call eq 'W') { $db->do('UPDATE registers SET v = ? WHERE k = ?', undef, $value, $register); return 'K' }
        if ($call eq 'T') { $db->commit; return 'C' }
        return 'A';
    };
    die $@ if $@ && $@ !~ /database (table )?is locked/;
    $answer //= 'A';
    $db->rollback if $answer eq 'A' && !$db->{AutoCommit};
    print "$thread $answer\n";
}
