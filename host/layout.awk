# The #[repr(C)] structs of the library, and a test that another text lays out the same: shore.h as C (default), or host/rust/src/ffi.rs (rust=FILE).
function ctype(t) {
    if (t == "usize") return "size_t"
    if (t == "f32") return "float"
    if (t == "f64") return "double"
    if (t ~ /^u[0-9]+$/) return "uint" substr(t, 2) "_t"
    return "struct rt_" t
}
function csize(r, c, name) { print "_Static_assert(sizeof(" r ") == sizeof(" c ") && _Alignof(" r ") == _Alignof(" c "), \"" name "\");" }
function cfield(r, c, name, f) { print "_Static_assert(offsetof(" r ", " f ") == offsetof(" c ", " f "), \"" name "." f "\");" }
function rsize(name) { print "const _: () = assert!(size_of::<rt::" name ">() == size_of::<ffi::" name ">() && align_of::<rt::" name ">() == align_of::<ffi::" name ">());" }
function rfield(name, f) { print "const _: () = assert!(offset_of!(rt::" name ", " f ") == offset_of!(ffi::" name ", " f "));" }
BEGIN {
    split("Setup setup Plan plan Done done Part part Reading reading Time time Poorest poorest Shown shown Counts counts Totals sums Month month Checked checked Outgoing outgoing Left left Unsent unsent", n, " ")
    for (i = 1; i in n; i += 2) { seen[n[i]] = "struct shore_" n[i + 1]; wanted++ }
    if (rust) print "#![allow(dead_code)]\nuse std::mem::{align_of, offset_of, size_of};\n#[path = \"" rust "\"]\nmod ffi;\nmod rt {"
    else print "#include \"shore.h\""
}
/^#\[repr\(C\)\]/ { marked = 1; next }
/^pub struct / { if (marked) { name = $3; print rust ? "#[repr(C)] pub struct " name " {" : "struct rt_" name " {" } marked = 0 }
/^    pub [a-z]+: / && name {
    f = $2; sub(":", "", f); t = $0; sub(/^[^:]*: /, "", t); sub(/,$/, "", t)
    if (rust) print "pub " f ": " t ","
    else if (t ~ /^\[/) { split(substr(t, 2, length(t) - 2), a, "; "); print "    " ctype(a[1]) " " f "[" a[2] "];" }
    else print "    " ctype(t) " " f ";"
    fields[name] = fields[name] " " f
}
/^}/ && name { print rust ? "}" : "};"; order[++k] = name; name = "" }
END {
    if (rust) { print "}"; rsize("Block") } else csize("struct rt_Block", "struct shore_block", "Block")
    for (i = 1; i <= k; i++) if ((s = order[i]) in seen) {
        found++
        if (rust) rsize(s); else csize("struct rt_" s, seen[s], s)
        m = split(fields[s], g, " ")
        for (j = 1; j <= m; j++) if (rust) rfield(s, g[j]); else cfield("struct rt_" s, seen[s], s, g[j])
    }
    if (found != wanted) exit 1
    if (rust) print "fn main() {}"
}
