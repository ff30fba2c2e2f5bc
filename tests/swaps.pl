# Whether a group, a process, a user and a plain number can change places in a call from C or C++. scripts/test-c runs it.
#
# Every function that the archive exports is taken from include/shootspiral.h and called: with its arguments in order, which must
# compile without a warning; with any two numbers of different types in each other's place; and with a number of every other type in
# the place of each. The compiler must refuse just what is out of place, for its type. Two numbers of one type, as `parent` and
# `group` of ss_make, can still change places: a compiler cannot know.
#
# Then the types must be what the archive takes: calls compiled with the header, and with plain numbers in the place of its types,
# are the same object file, byte for byte.
use strict;
use warnings;

$ENV{LC_ALL} = 'C'; # for the words of the compilers' errors
my $archive = 'target/staticlib/libshootspiral.a';
my $folder = 'target/swaps';
my @compilers = (
    { run => 'gcc -std=c99', ending => 'c', refusal => qr/^incompatible type for argument \d+ of /, names_all => 1 },
    # g++ stops at the first argument of a call that does not fit.
    { run => 'g++ -std=c++98', ending => 'cpp', refusal => qr/^(?:cannot|could not) convert /, names_all => 0 },
    { run => 'g++ -std=c++17', ending => 'cpp', refusal => qr/^(?:cannot|could not) convert /, names_all => 0 },
);

# The types of numbers: what each is passed as, what makes one of that, and a variable of each.
my %plain = (ss_group => 'uint64_t', ss_process => 'uint64_t', ss_user => 'uint32_t');
my %maker = (ss_group => 'ss_g', ss_process => 'ss_p', ss_user => 'ss_u');
my %any = (ss_group => 'any_group', ss_process => 'any_process', ss_user => 'any_user', uint64_t => 'any_plain');

# The functions of the header. A parameter is its type, its name, and what stands after the name.
sub declared {
    open my $in, '<', 'include/shootspiral.h' or die "the header: $!";
    my ($text) = join('', <$in>) =~ /^extern "C" \{$(.*)^\}$/sm or die 'no functions in the header';
    $text =~ s{/\*.*?\*/|^#.*?$}{}gsm;
    my @functions;
    for (grep { /\S/ } split /;/, $text =~ s/\s+/ /gr) {
        my ($result, $name, $list) = /^ (\w+) (\w+)\((.*)\)$/ or die "not a declaration: $_\n";
        my @parameters = map { [/^(.*?) ?\b(\w+)(\[\d+\])?$/] } grep { $_ ne 'void' } split /, /, $list;
        push @functions, { result => $result, name => $name, parameters => \@parameters };
    }
    return @functions;
}

# What type of number a parameter is; nothing where it is a pointer. A length is a plain number.
sub number {
    my ($type, $name, $words) = @{$_[0]};
    return '' if $words || $type =~ /\*/;
    return 'uint64_t' if $type eq 'size_t';
    return $type if $any{$type};
    die "what type of number is `$type $name`?\n";
}

sub names { return map { $_->[1] } @{$_[0]{parameters}} }

sub parameters {
    my ($function, $is_plain) = @_;
    my @written = map { ($is_plain && $plain{$_->[0]} || $_->[0]) . " $_->[1]" . ($_->[2] // '') } @{$function->{parameters}};
    return join(', ', @written) || 'void';
}

# A call, in a function of its own: a line up to the arguments, and one for each of them, so that an error there is of that argument.
sub calling {
    my ($number, $function, @arguments) = @_;
    my $head = "void call_$number(" . parameters($function) . ") { $function->{name}(";
    return ($head, (map { "\t$arguments[$_]" . ($_ < $#arguments ? ',' : '') } 0 .. $#arguments), '); }');
}

my $failed = 0;

sub complain {
    print "@_\n";
    $failed = 1;
}

# Writes the lines to a file and compiles it; what the compiler says, and whether it was content.
sub compile {
    my ($compiler, $options, $name, @lines) = @_;
    my $path = "$folder/$name.$compiler->{ending}";
    open my $out, '>', $path or die "$path: $!";
    print $out map { "$_\n" } @lines;
    close $out or die "$path: $!";
    my $said = qx($compiler->{run} -Iinclude $options $path 2>&1);
    return ($said, $? == 0);
}

sub compile_clean {
    my ($said, $is_content) = compile($_[0], "-Wall -Wextra -pedantic -Werror $_[1]", @_[2 .. $#_]);
    complain("$_[0]{run}: $_[2]\n$said") if !$is_content;
}

mkdir 'target';
mkdir $folder;
my @functions = declared();
my @exported = sort map { / T (ss_\w+)$/ ? $1 : () } qx(nm $archive);
my @called = sort map { $_->{name} } @functions;
die "exported: @exported\ndeclared: @called\n" if !@called || "@exported" ne "@called";

my @in_order = my @changed = ('#include "shootspiral.h"', map { "extern $_ $any{$_};" } sort keys %any);
my (%out_of_place, %is_first); # by line of @changed

# Adds a call where the arguments at these places must be refused.
sub change {
    my ($function, $arguments, @places) = @_;
    for my $place (@places) {
        my $line = @changed + 2 + $place; # lines count from 1, and one comes before the arguments
        $out_of_place{$line} = "$function->{name}: $arguments->[$place] in the place of $function->{parameters}[$place][1]";
        $is_first{$line} = $place == $places[0];
    }
    push @changed, calling(scalar @changed, $function, @$arguments);
}

for my $function (@functions) {
    my @names = names($function);
    my @numbers = map { number($_) } @{$function->{parameters}};
    push @in_order, calling(scalar @in_order, $function, @names);
    for my $i (grep { $numbers[$_] } 0 .. $#numbers) {
        for my $j (grep { $numbers[$_] && $numbers[$_] ne $numbers[$i] } $i + 1 .. $#numbers) {
            my @swapped = @names;
            @swapped[$i, $j] = @names[$j, $i];
            change($function, \@swapped, $i, $j);
        }
        for my $other (grep { $_ ne $numbers[$i] } sort keys %any) {
            my @wrong = @names;
            $wrong[$i] = $any{$other};
            change($function, \@wrong, $i);
        }
    }
}

# The same calls with the header, and with plain numbers.
my @with_header = ('#include "shootspiral.h"');
my @with_plain = ('#include <stddef.h>', '#include <stdint.h>');
for my $function (@functions) {
    my ($result, $name, $parameters) = ($function->{result}, $function->{name}, parameters($function, 1));
    my $passes = "$result pass_$name($parameters) { " . ($result eq 'void' ? '' : 'return ') . $name;
    my @made = map { $maker{$_->[0]} ? "$maker{$_->[0]}($_->[1])" : $_->[1] } @{$function->{parameters}};
    push @with_header, "$passes(" . join(', ', @made) . '); }';
    push @with_plain, '#ifdef __cplusplus', 'extern "C"', '#endif', "$result $name($parameters);";
    push @with_plain, "$passes(" . join(', ', names($function)) . '); }';
}

for my $compiler (@compilers) {
    compile_clean($compiler, '-fsyntax-only', 'in_order', @in_order);

    my ($said) = compile($compiler, '-fsyntax-only', 'changed', @changed);
    my %is_refused;
    for (split /\n/, $said) {
        my ($line, $error) = /:(\d+):\d+: error: (.*)/ or next;
        $is_refused{$line} = 1;
        complain("$compiler->{run}: changed, line $line: $error") if !$out_of_place{$line} || $error !~ $compiler->{refusal};
    }
    for my $line (sort { $a <=> $b } keys %out_of_place) {
        my $is_named = $compiler->{names_all} || $is_first{$line};
        complain("$compiler->{run}: accepted: $out_of_place{$line}") if $is_named && !$is_refused{$line};
    }

    # An object file has the name of its source, which therefore is the same.
    compile_clean($compiler, "-O2 -c -o $folder/header.o", 'pass', @with_header);
    compile_clean($compiler, "-O2 -c -o $folder/plain.o", 'pass', @with_plain);
    complain("$compiler->{run}: passed otherwise than plain numbers") if system('cmp', "$folder/header.o", "$folder/plain.o") != 0;
}
exit 1 if $failed;
my $count = keys %out_of_place;
print "$count numbers out of place are refused, and those in place are passed as plain numbers, in C and in C++\n";
