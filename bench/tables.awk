# The published coefficients, from the bits that test_published writes, as Rust text under the given files' names:
# awk -f tables.awk crates/test_published/stdout
function rust_name(table) {
    if (table == "resampling") return "TAB_RESAMP_FILTER"
    if (table == "correlation_interpolation") return "TAB_LTPF_INTERP_R"
    if (table == "signal_interpolation") return "TAB_LTPF_INTERP_X12K8"
    sub(/^numerator/, "TAB_LTPF_NUM", table)
    sub(/^denominator/, "TAB_LTPF_DEN", table)
    return table
}
function finish() {
    if (entry != count) failed = 1
    else if (count) print rows ? "]];" : "];"
}
NF == 2 {
    finish()
    if (failed) exit
    count = $2; entry = 0; rows = $1 ~ /_[0-9]+$/; row = count / 4
    if (rows) printf "pub static %s: [[f32; %d]; 4] = [[\n", rust_name($1), row
    else printf "pub static %s: [f32; %d] = [\n", rust_name($1), count
    next
}
NF == 1 && $1 ~ /^[0-9a-f]+$/ && length($1) == 8 {
    if (rows && entry && entry % row == 0) print "], ["
    printf "f32::from_bits(0x%s),\n", $1
    entry++
    next
}
{ exit failed = 1 }
END {
    if (!failed) finish()
    if (failed) {
        print "tables.awk: cannot take line " NR > "/dev/stderr"
        exit 1
    }
}
