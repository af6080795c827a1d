# Becomes a program that the system kills if the process that started it ends, also if that is
# killed itself: perl tools/child.pl PARENT PROGRAM ARGUMENT ..
use strict;

my ($parent, @words) = @ARGV;
delete $ENV{PERL_BADLANG};
# prctl(PR_SET_PDEATHSIG, SIGKILL), by its number on x86-64.
syscall 157, 1, 9;
exit 1 if getppid != $parent;
exec { $words[0] } @words;
exit 126;
