# awk -f tools/copies.awk MODULE.ll: the module with each copy of bytes as a plain memmove.
#
# Where bytes are copied, rattle's standard library has a loop (copy_bits of core/src/ptr/copy_drop.rt) whose contract asks for two places that do not
# overlap. rattle compiles it to a memmove, and to the loop where they do overlap after all:
#       %r8 = ptrtoaddr ptr %a1 to i64
#       %r9 = ptrtoaddr ptr %a0 to i64
#       %r10 = sub i64 %r8, %r9
#       %r11 = icmp ult i64 %r10, %r7
#       br i1 %r11, label %inside.1, label %apart.2
#     apart.2:
#       call void @llvm.memmove.p0.p0.i64(ptr %a1, ptr %a0, i64 %r7, i1 false)
#       ret void
# That they do not is proved for every copy of the library, over slices that do not overlap where the header asks for that. The comparison would have to
# know how wide an address is, and the loop, which is never reached, takes stack and code in every call that copies. So the way to the memmove is made the
# only one. What is not in this very form stays as it is, and tools/controller refuses it.

function is_copy(i,    a, b, c, d, e, j) {
    split(line[i], a, " "); split(line[i + 1], b, " "); split(line[i + 2], c, " "); split(line[i + 3], d, " "); split(line[i + 4], e, " ")
    if (line[i] != "  " a[1] " = ptrtoaddr ptr " a[5] " to i64" || line[i + 1] != "  " b[1] " = ptrtoaddr ptr " b[5] " to i64") return 0
    if (line[i + 2] != "  " c[1] " = sub i64 " a[1] ", " b[1] || line[i + 3] != "  " d[1] " = icmp ult i64 " c[1] ", " d[7]) return 0
    if (line[i + 4] != "  br i1 " d[1] ", label " e[5] " label " e[7]) return 0
    for (j = i + 5; j <= n && index(line[j], substr(e[7], 2) ":") != 1; j++) ;
    to = e[7]
    return line[j + 1] == "  call void @llvm.memmove.p0.p0.i64(ptr " a[5] ", ptr " b[5] ", i64 " d[7] ", i1 false)" && line[j + 2] == "  ret void" &&
        !used(a[1], i) && !used(b[1], i) && !used(c[1], i) && !used(d[1], i)
}

# whether a name stands outside of the five lines from i on
function used(name, i,    j) {
    for (j = 1; j <= n; j++) if ((j < i || j > i + 4) && match(line[j] " ", name "[^A-Za-z0-9_.]")) return 1
    return 0
}

function tell(    i) {
    for (i = 1; i <= n; i++)
        if (line[i] ~ /ptrtoaddr/ && is_copy(i)) { print "  br label " to; i += 4 } else print line[i]
    n = 0
}

/^define / { inside = 1 }
!inside { print; next }
{ line[++n] = $0 }
/^[}]/ { inside = 0; tell() }
