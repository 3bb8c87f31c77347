# From the tables of the documents, the lines of C that hold the headers in include/ to them: a line that is wrong does not compile.
#
# - A table with the columns offset, bytes and name is the layout of the struct that was named last above it.
# - A row that has a name `REEDTASSEL_..` in a cell has its number in another, the first that is a number.
# - A row of the table of kinds has a number and a word twice; the name is REEDTASSEL_ and the word in capitals.

function holds(condition) { printf "typedef char line_%d[%s ? 1 : -1];\n", ++lines, condition }

function trimmed(cell) { gsub(/^ +| +$|`/, "", cell); return cell }

# The layout that ends here has every byte of its struct.
function close_layout() {
    if (layout != "") holds("sizeof(struct " layout ") == " bytes)
    layout = ""
}

BEGIN { FS = "|"; print "#include \"reedtassel.h\"\n#include \"reedtassel_compare.h\"" }

match($0, /struct reedtassel_[a-z]+/) { named = substr($0, RSTART + 7, RLENGTH - 7) }

!/^\|/ { close_layout(); kinds = 0; next }

/^\| offset[a-z ]*\| bytes \| name \|/ { layout = named; bytes = 0; next }
/^\| kind \| word \|/ { kinds = 1; next }
/^\|---/ { next }

layout != "" {
    field = trimmed($4)
    holds("offsetof(struct " layout ", " field ") == " trimmed($2) " && sizeof(((struct " layout " *)0)->" field ") == " trimmed($3))
    bytes += $3
}

kinds {
    holds("REEDTASSEL_" toupper(trimmed($3)) " == " trimmed($2))
    holds("REEDTASSEL_" toupper(trimmed($7)) " == " trimmed($6))
}

/`REEDTASSEL_[A-Z0-9_]+`/ {
    name = number = ""
    for (i = 2; i < NF; i++) {
        cell = trimmed($i)
        if (cell ~ /^REEDTASSEL_/) name = cell
        gsub(/,/, "", cell)
        if (number == "" && cell ~ /^[0-9]+$/) number = cell
    }
    holds(name " == " number)
}

END { close_layout() }
