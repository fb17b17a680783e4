# awk -f tools/pointers.awk MODULE.ll: the module for a core whose pointers have four bytes. rattle makes it for pointers of eight.
#
# Where a function returns an Option of a reference, rattle stores the tag at byte 0 and the reference at byte 8, and loads both at once:
#       %r3 = load { i8, ptr }, ptr %r1
# What lies where in such a type goes by the width of a pointer: on a core of 32 bits the reference would be looked for at byte 4. Each value is loaded by
# itself here, from where it lies in the layout of x86-64, by which the rest of the module counts:
#       %r3.at1 = getelementptr i8, ptr %r1, i64 8
#       %r3.of1 = load ptr, ptr %r3.at1
# And a place for a pointer has eight bytes, as many as are cleared and copied there:
#       %r2 = alloca [8 x i8], align 8
# A constant that holds a pointer gets four bytes after it, so that what follows lies where the rest of the module looks for it:
#       @static.1 = private constant <{ ptr, [4 x i8], [8 x i8] }> <{ ptr @static.2, [4 x i8] zeroinitializer, [8 x i8] c".." }>
# Any other use of memory by a type with a pointer in it stays as it is, and tools/controller refuses it.

function size_of(type) {
    if (type == "ptr" || type == "i64") return 8
    if (type == "i32") return 4
    if (type == "i16") return 2
    if (type == "i8" || type == "i1") return 1
    return 0
}

/^  %[^ ]+ = load \{ [^{}]*ptr[^{}]* \}, ptr %[^ ,]+(, align 8)?$/ {
    name = $1
    types = $0
    sub(/^[^{]*\{ /, "", types)
    sub(/ \}.*$/, "", types)
    from = $0
    sub(/^.*\}, ptr /, "", from)
    sub(/,.*$/, "", from)
    n = split(types, type, ", ")
    known = 1
    for (i = 1; i <= n; i++) if (!size_of(type[i])) known = 0
    if (known) {
        at = 0
        whole = "poison"
        for (i = 1; i <= n; i++) {
            size = size_of(type[i])
            at += (size - at % size) % size
            print "  " name ".at" i " = getelementptr i8, ptr " from ", i64 " at
            print "  " name ".of" i " = load " type[i] ", ptr " name ".at" i
            next_whole = i == n ? name : name ".to" i
            print "  " next_whole " = insertvalue { " types " } " whole ", " type[i] " " name ".of" i ", " (i - 1)
            whole = next_whole
            at += size
        }
        next
    }
}
/^@[^ ]+ = .*constant <\{ ([^<>]*, )?ptr[, ].* \}> <\{ / {
    cut = index($0, " }> <{ ")
    types = substr($0, 1, cut - 1)
    values = substr($0, cut)
    gsub(/ptr/, "ptr, [4 x i8]", types)
    gsub(/ptr getelementptr \([^()]*\)|ptr @[A-Za-z0-9_.]+/, "&, [4 x i8] zeroinitializer", values)
    print types values
    next
}
/^  %[^ ]+ = alloca ptr(, align 8)?$/ { sub(/alloca ptr/, "alloca [8 x i8]") }
{ print }
