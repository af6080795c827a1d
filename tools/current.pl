# Ends with status 0 if each file and folder that PROGRAM.files names is there and was last changed in a second before
# that of the program's time: perl tools/current.pl TOP PROGRAM. In perl, since nothing else asks for 2,000 times so soon.
use strict;

my ($top, $program) = @ARGV;
my $built = (stat $program)[9];
open my $files, '<', "$program.files" or exit 1;
while (my $file = <$files>) {
    chomp $file;
    my $changed = (lstat "$top/$file")[10];
    exit 1 if !defined $changed || $changed >= $built;
}
exit($. ? 0 : 1);
