#!/usr/bin/perl
# Uses each operation of docs/openapi.yaml through a client that Debian's libopenapi-client-perl makes of its twin by
# OpenAPI 3.0.3 (tools/openapi30), over a server of its own with the sample site: the life of a chip, a second chip that
# is scrapped, and what each operation shows. The client holds each request to the description before it is sent, and
# this script each reply's status; three wrong requests have to be refused before anything is sent.
#
#   perl openapi_client.pl --program P
#
# A line for each operation that isn't as it should be, and the status is 1 then.
# Perl 5 with Debian's libopenapi-client-perl; python3-yaml for the twin.
use strict;
use warnings;

use FindBin;
use Getopt::Long;
use JSON::PP;
use Mojo::File qw(tempdir);
use Mojo::IOLoop::Server;
use OpenAPI::Client;

my $top = "$FindBin::Bin/../..";
my $program = "$top/crates/station/out/station";
GetOptions('program=s' => \$program, 'help' => \my $help) or die "usage: openapi_client.pl [--program P]\n";
if ($help) { print "usage: openapi_client.pl [--program P]\n"; exit 0 }
-x $program or die "openapi_client.pl: $program is no program\n";

my $folder = tempdir;
$| = 1;
my ($faults, $used, $nr) = (0, 0, 0);

# The twin, whose only server is the one that is started here.
my $port = Mojo::IOLoop::Server->generate_port;
system("$top/tools/openapi30", '--out', "$folder/twin.json") == 0 or die "openapi_client.pl: no twin\n";
my $twin = decode_json($folder->child('twin.json')->slurp);
$twin->{servers} = [{url => "http://127.0.0.1:$port"}];
$folder->child('twin.json')->spurt(encode_json($twin));
my $client = OpenAPI::Client->new("file://$folder/twin.json");
# JSON::Validator warns of a format that it has no rule for: the description's own is text to it.
$client->validator->formats->{'serials-and-keys'} = sub { undef };
my $token = 'abc';
$client->ua->on(start => sub { $_[1]->req->headers->authorization("Bearer $token") });

my $server = open(my $listening, '-|', $program, 'serve', '--site', "$top/crates/station/data/site.toml",
    '--db', "$folder/books.db", '--port', $port, '--connections', 1000) or die "openapi_client.pl: $!\n";
# The status is kept: `close` puts the server's own in its place.
END { my $status = $?; kill 'KILL', $server and close $listening if $server; $? = $status }
readline $listening;

# Calls an operation, and gives its reply, which has to have this status.
sub uses {
    my ($operation, $parameters, $body, $status) = @_;
    my $reply = $client->$operation($parameters, defined $body ? (json => $body) : ());
    my $code = $reply->res->code // 'none';
    $used++;
    print "$operation: $code, not $status: ", $reply->res->body, "\n" and $faults++ if $code ne $status;
    return $reply->res->json // {};
}

# A request that changes something, with the seat's next number.
sub asks { my ($operation, %members) = @_; return uses($operation, {}, {nr => ++$nr, %members}, 200) }

# The body that the description has as an operation's accepted example, without its number.
sub example {
    my ($path, $name) = @_;
    my %members = %{$twin->{paths}{$path}{post}{requestBody}{content}{'application/json'}{examples}{$name}{value}};
    delete $members{nr};
    return %members;
}

# One chip from its registration to its shipping. Its second read-back shows the locks of the second batch, and zeros for
# the key that these hide.
asks('importMap', example('/v1/map', 'walk'));
asks('makeOrder', example('/v1/order', 'walk'));
my %chip = example('/v1/device', 'walk');
asks('registerDevice', %chip);
my $plan = asks('planDevice', example('/v1/plan', 'walk'));
my %read = example('/v1/readback', 'walk');
asks('readBack', %read);
for my $word (@{$plan->{batch2}{bits}}) {
    my $place = \$read{blocks}[$word->{block}][$word->{word}];
    $$place = sprintf '%08x', hex($$place) | hex($word->{mask});
}
$read{blocks}[1] = [('0' x 8) x 8];
asks('readBack', %read);
asks('identifyDevice', example('/v1/identity', 'walk'));
asks('shipDevice', example('/v1/ship', 'walk'));

# A second chip, which is scrapped, and numbers of another issuer's past.
my @blocks = map { [@$_] } @{$chip{blocks}};
asks('registerDevice', %chip, chip => '240ac4000002', blocks => \@blocks);
asks('scrapDevice', chip => '240ac4000002');
asks('importSerials', example('/v1/import', 'conversation'));

# What each operation shows, the manager's by its own token.
uses('showOrder', {name => 'o1'}, undef, 200);
uses($_, {chip => $chip{chip}}, undef, 200) for qw(showDevice showLedger showIdentity);
uses('listDevices', {after => ''}, undef, 200);
uses('report', {}, undef, 200);
$token = 'test';
uses('siteReport', {}, undef, 200);
$token = 'abc';

# Refused by the client itself: the server's next number is still the same behind them.
my @wrong = (['planDevice', {nr => $nr + 1, chip => $chip{chip}, wishes => [{kind => 'colour', field => 'RD_DIS'}]}],
    ['shipDevice', {nr => 'one', chip => $chip{chip}}], ['makeOrder', {nr => $nr + 1, name => 'o2'}]);
for my $row (@wrong) {
    my ($operation, $body) = @$row;
    my $reply = $client->$operation({}, json => $body);
    print "$operation: a wrong request was sent\n" and $faults++ if $reply->res->code ne 400 || $reply->remote_address;
}
uses('shipDevice', {}, {nr => $nr + 1, chip => '240ac4000009'}, 404);

my $known = grep { ref eq 'HASH' && $_->{operationId} } map { values %$_ } values %{$twin->{paths}};
print "$used calls, $known operations, ${\ scalar @wrong} wrong requests: $faults faults\n";
exit($faults ? 1 : 0);
