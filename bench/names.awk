# What the jobs, calls and kinds are called in a table. Read before report.awk and plot.awk.
function thousands(n,    s, t) {
    for (s = sprintf("%d", n); length(s) > 3; s = substr(s, 1, length(s) - 3)) t = "," substr(s, length(s) - 2) t
    return s t
}
function job_is(name, call_name, kind_name, title) {
    job[++jobs] = name; job_call[jobs] = call_name; job_kind[jobs] = kind_name; job_title[jobs] = title
    call_of[name] = call_name
}
function call_is(name, title) { call[++calls] = name; call_title[calls] = title }
function kind_is(name, title) { kind[++kinds] = name; kind_title[kinds] = title }
BEGIN {
    job_is("sha256-64", "sha256", "hash", "SHA-256 of 64 bytes")
    job_is("sha256-1024", "sha256", "hash", "SHA-256 of 1 KiB")
    job_is("sha256-65536", "sha256", "hash", "SHA-256 of 64 KiB")
    job_is("aka-keys", "aka", "usage", "keys of EAP-AKA', name of 4, identity of 16 bytes")
    job_is("usage-64", "usage", "usage", "usage key of 64 bytes, no data")
    job_is("usage-64-data", "usage", "usage", "usage key of 64 bytes, 2,048 of data")
    job_is("usage-8160", "usage", "usage", "usage key of 8,160 bytes, label 255, data 2,048")
    job_is("r0-key", "handover", "handover", "R0-Key")
    job_is("r1-key", "handover", "handover", "R1-Key")
    job_is("domain-root", "domain", "usage", "root key of a domain of 38 bytes")
    job_is("domain-reauth", "domain", "usage", "re-authentication root key under it")
    job_is("write-16", "write", "attribute", "Key attribute written, key of 16")
    job_is("write-192", "write", "attribute", "Key attribute written, key of 192")
    job_is("read-16", "read", "attribute", "Key attribute read, key of 16")
    job_is("read-192", "read", "attribute", "Key attribute read, key of 192")
    job_is("sign-72", "packet", "usage", "packet of 72 bytes signed")
    job_is("sign-4096", "packet", "usage", "packet of 4,096 bytes signed")
    job_is("check-4096", "packet", "usage", "packet of 4,096 bytes checked")
    job_is("area-17", "area", "area", "area of 17 offers")
    job_is("bundle-write-64", "bundle-write", "bundle", "bundle of 64 written")
    job_is("bundle-read-64", "bundle-read", "bundle", "bundle of 64 read")
    job_is("bundle-compare-64", "bundle-compare", "comparison", "two bundles of 64 compared")
    job_is("slot-put", "slots", "slots", "a name put into the last slot, below two others")
    job_is("slot-drop", "slots", "slots", "64 slots dropped with the root of all")
    call_is("sha256", "SHA-256")
    call_is("aka", "keys of EAP-AKA'")
    call_is("usage", "usage key")
    call_is("handover", "R0-Key, R1-Key")
    call_is("domain", "root key of a domain")
    call_is("write", "Key attribute written")
    call_is("read", "Key attribute read")
    call_is("packet", "packet signed")
    call_is("area", "area of 17 offers")
    call_is("bundle-write", "bundle of 64 written")
    call_is("bundle-read", "bundle of 64 read")
    call_is("bundle-compare", "two bundles of 64 compared")
    call_is("slots", "slots")
    kind_is("hash", "SHA-256")
    kind_is("usage", "usage key")
    kind_is("handover", "R0-Key and R1-Key")
    kind_is("attribute", "Key attribute, both ways")
    kind_is("area", "attribute area")
    kind_is("bundle", "bundles, both ways")
    kind_is("comparison", "two bundles compared")
    kind_is("slots", "slots")
    kind_is("all", "all of these")
}
