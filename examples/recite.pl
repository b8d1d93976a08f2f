# perl recite.pl KEYS PAPER: prints a LaTeX document with new keys in its citations.
# KEYS has a line for each key: the old key, a tab, the new key. If an old key comes twice, the first line counts.
my ($keys, $paper) = @ARGV;
open my $list, '<', $keys or die "$keys: $!\n";
my %new = map { chomp; my ($old, $new) = split /\t/; (lc $old, $new) } reverse grep /\t./, <$list>;
open my $in, '<', $paper or die "$paper: $!\n";
my $text = do { local $/; <$in> };

sub renamed {
    my $cited = shift;
    $cited =~ s/([^\s,{}%]+)/exists $new{lc $1} ? $new{lc $1} : $1/ge;
    return $cited;
}

sub recited {
    my $command = shift;
    $command =~ s/(\[[^\]]*\])|\{([^}]*)\}/defined $1 ? mended($1) : '{' . renamed($2) . '}'/ge;
    return $command;
}

my $argument = qr/(?:\s*\[[^\]]*\])*\s*\{[^}]*\}/;
sub mended {
    my $part = shift;
    $part =~ s/(\\[A-Za-z]*[Cc]ite)(s\*?(?:\([^)]*\))*$argument+|[A-Za-z]*\*?$argument)/$1 . recited($2)/ge;
    return $part;
}
print mended($text);
