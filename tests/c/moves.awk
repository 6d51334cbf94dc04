# Writes the header so that each constant, each size by a rule, and each shift and mask of an accessor, can be moved: MOVED in the
# environment names it, BY says by how much.
/^#include <stdint.h>/ {
    print
    print "#include <stdlib.h>"
    print "#include <string.h>"
    print "static inline int felica_moves(const char *name)"
    print "{"
    print "    const char *moved = getenv(\"MOVED\");"
    print "    return moved != NULL && strcmp(moved, name) == 0 ? atoi(getenv(\"BY\")) : 0;"
    print "}"
    next
}
/^#define FELICA_[A-Z0-9_]+ / {
    print "#define " $2 " (" $3 " + felica_moves(\"" $2 "\"))"
    next
}
/^#define FELICA_[A-Z0-9_]+\(n\) / {
    name = substr($2, 1, index($2, "(") - 1)
    rule = substr($0, index($0, $3))
    print "#define " $2 " (" rule " + felica_moves(\"" name "\"))"
    next
}
/^static inline/ {
    match($0, /felica_answer_[a-z_]+/)
    name = substr($0, RSTART, RLENGTH)
}
/return .*answer/ {
    sub(/>> [0-9]+/, "& + felica_moves(\"" name " shift\")")
    match($0, /0x[F]+/)
    mask = substr($0, RSTART, RLENGTH)
    sub(mask, "(" mask " + felica_moves(\"" name " mask\"))")
}
{ print }
