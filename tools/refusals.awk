# awk -f tools/refusals.awk ketvaulo.h: the refusals of the header with the words of their comments, as the lines of a switch in C. They are
# those of include/ketvaulo_text.h; tests/header.sh compares.
/^enum [{]/ { inside = 1; next }
/^[}];/ { inside = 0 }
!inside { next }
/^ *KV_[A-Z0-9_]* = [0-9]+,? *\/\*/ { name = $1; words = $0; sub(/^[^*]*\* */, "", words) }
name != "" && !/^ *KV_/ { more = $0; sub(/^ */, "", more); words = words " " more }
name != "" && words ~ /\*\// { sub(/ *\*\/.*/, "", words); printf "    case %s: return \"%s\";\n", name, words; name = "" }
