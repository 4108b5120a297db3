package Steps;

# Runs the steps of a script over a client, and prints a line of JSON for each.

use strict;
use warnings;
use JSON;
use Time::HiRes qw(sleep time);
use Exporter qw(import);
our @EXPORT = qw(step ended);

my $json = JSON->new->utf8->canonical->allow_nonref->allow_blessed;
my $failed = 0;
$| = 1;

# step $api, 'name', sub { .. }: begins when no job of the wiki waits.
sub step {
    my ($api, $name, $does) = @_;
    my $ends = time + 120;
    while (time < $ends) {
        my $reply = $api->api({ action => 'query', meta => 'siteinfo', siprop => 'statistics', requestid => 'waits' }) or last;
        last unless $reply->{query}->{statistics}->{jobs};
        sleep 0.01;
    }
    my $got = eval { $does->() };
    my $line = { step => $name };
    if ($@) {
        print STDERR "$name: $@";
        $line->{failed} = "$@";
        $failed++;
    }
    else {
        $line->{got} = $got;
    }
    print $json->encode($line), "\n";
}

sub ended {
    exit($failed ? 1 : 0);
}

1;
