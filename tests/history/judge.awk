# Compares what was answered with what was wanted. The first file has the rows of changes.awk and cases.awk; the second, for each row in its
# order, the answer and a line `status N`. Prints what fails, and at last how many passed and failed.

BEGIN { FS = "\t" }

FNR == NR {
    file[++rows] = $1
    wanted[rows] = $2
    next
}

!/^status / {
    answer = answer (answer == "" ? "" : "\001") $0
    next
}

{
    row++
    if (is_wanted(row, answer) && substr($0, 8) == status_of(answer)) passed++
    else tell(row, substr($0, 8))
    answer = ""
}

function status_of(answer) { return answer ~ /^legal/ ? 0 : answer ~ /^bad/ ? 2 : 9 }

function is_wanted(row, answer,    part) {
    if (wanted[row] ~ /^= /) return answer == substr(wanted[row], 3)
    split(wanted[row], part, " ")
    if (part[1] == "at" && answer ~ "^bad line " part[2] " [a-z]+$") return 1
    return is_illegal(row, answer, part[2])
}

# Three lines, of which the last has the line as it stands, and the one before it has another.
function is_illegal(row, answer, at,    said, line) {
    if (split(answer, said, "\001") != 3 || said[1] != "illegal line " at) return 0
    while (at-- > 0) if ((getline line <file[row]) <= 0) return 0
    close(file[row])
    return said[3] == "have " line && said[2] ~ /^want ./ && said[2] != "want " line
}

function tell(row, status) {
    failed++
    gsub(/\001/, " / ", answer)
    gsub(/\001/, " / ", wanted[row])
    sub(/.*\//, "", file[row])
    print "    " file[row] ": wanted " wanted[row] ", and status " status " with " answer
}

END {
    if (row != rows) {
        print "    " row " answers of " rows
        failed++
    }
    print passed + 0, failed + 0
}
