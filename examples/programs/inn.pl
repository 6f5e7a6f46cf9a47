#!/usr/bin/perl
# The least program: it makes an inn in one batch, reads it, is refused, and follows what changes.
#
#     perl inn.pl URL TOKEN
#
# It needs the modules that come with Perl alone.
use strict;
use warnings;
use HTTP::Tiny;
use JSON::PP;

my ($url, $token) = @ARGV;
my $http = HTTP::Tiny->new(timeout => 30, default_headers => { authorization => "Bearer $token" });

sub asked {
    my ($method, $path, $body) = @_;
    my $reply = $http->request($method, "$url$path", $body ? { content => encode_json($body) } : {});
    return ($reply->{status}, decode_json($reply->{content}));
}

sub calls { return { calls => [@_] } }

my $inn = { name => "inn" };
my (undef, $made) = asked("POST", "api/batch?json", calls(
    ['$inn = create', { obj => 1 }],
    ["set", $inn, "name", "The Inn"],
    ['$owner = get', $inn, "owner"],
    ["add_property", $inn, "beds", 3, [{ name => "owner" }, "r"]],
));
$inn = $made->{names}{inn};
print "made #$inn->{obj}\n";

my (undef, $read) = asked("POST", "api/ask?json", calls(map { ["get", $inn, $_] } qw(name beds owner)));
my ($name, $beds, $owner) = @{ $read->{answers} };
print "$name has $beds beds and #$owner->{obj} owns it\n";

my ($status, $refusal) = asked("POST", "api/batch?json", calls(["set", { obj => 3 }, "name", "Ada's"]));
print "refused: $refusal->{error} at call $refusal->{call}\n" if $status == 409;

my (undef, $now) = asked("GET", "api/seq");
asked("POST", "api/batch?json", calls(["set", $inn, "beds", 4]));
my (undef, $changes) = asked("GET", "api/since/$now->{seq}?wait=20");
print "changed: ", join(", ", @{ $changes->{objects} }), "\n";
