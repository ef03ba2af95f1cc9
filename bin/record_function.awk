# Prints where the function NAME of the environment begins, by the lines of nm: `ADDRESS KIND NAME`,
# with each address once. If there is none it fails, and prints what a message can say beside. Read
# by record.

{ any = 1 }
$2 !~ /^[TtW]$/ { next }
{ name = substr($0, length($1) + 4) }

name == ENVIRON["NAME"] && !seen[$1]++ {
    print $1
    found = 1
}

# A compiler adds `.constprop.0`, `.isra.0` or `.part.0` to the name of a copy that it made. What it
# never expects to be run, it puts apart, with `.cold`.
index(name, ENVIRON["NAME"] ".") == 1 && name !~ /\.cold(\.[0-9]+)?$/ {
    copies = copies (copies == "" ? ", but " : ", ") "\047" name "\047"
}

END {
    if (!any) copies = ", which is stripped of all names"
    if (!found && copies != "") print copies
    exit !found
}
