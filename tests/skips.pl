#!/usr/bin/env perl
# Prints what `prove` prints to it, and before its last lines the tests that were skipped and how to run some of them:
# the packages of what packaging/tools.txt has and their reasons name, unless it is a command on the PATH. ./test pipes
# into this program, at the top of the repository.
use strict;
use warnings;

# The commands that install packages, and their column of names in the table.
my @managers = (["apt-get install", 0], ["dnf install", 1], ["apk add", 2]);

sub is_command_on_path {
    my $command = shift;
    return scalar grep { -f -x "$_/$command" } split /:/, $ENV{PATH};
}

# The packages of this column by the words that a reason has for what they bring: its name, or Debian's of the package.
sub packages_by_reason_word {
    my ($column, %package) = @_;
    open my $table, "<", "packaging/tools.txt" or die "skips.pl: no packaging/tools.txt\n";
    for (grep { !/^#/ } <$table>) {
        my (undef, $thing, @names) = split;
        my $name = $names[$column] // $names[0];
        my $is_command = $thing !~ s{.*[:/]}{};
        $package{$thing} = $name if $name ne "-" && !($is_command && is_command_on_path($thing));
        $package{$names[0]} //= $name if $name ne "-" && !is_command_on_path($names[0]);
    }
    return %package;
}

my ($manager) = grep { is_command_on_path($_->[0] =~ /(\S+)/) } @managers;
my ($install, $column) = @{$manager // [", install what Debian calls", 0]};
my %package = packages_by_reason_word($column);
my ($skipped, $enabled, %absent) = ("", 0);
$| = 1;
while (my $line = <STDIN>) {
    if ($line =~ / # SKIP (.*)|[.] skipped: (.*)/) {
        my @packages = grep { defined } map { $package{$_} } split /[\s,:;()]+/, $+;
        $skipped .= $line;
        $enabled += @packages > 0;
        @absent{@packages} = ();
    }
    if ($skipped && $line =~ /^(All tests successful|Test Summary Report)/) {
        print "\nThese tests were skipped:\n$skipped\n";
        print "To run $enabled of them", $manager ? ": " : "", "$install @{[sort keys %absent]}\n\n" if $enabled;
    }
    print $line;
}
