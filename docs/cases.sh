#!/usr/bin/env bash
# Prints what the pages show of a program, `pota` or the one that is named, as cases of the language that the crate `row_cases`
# has, and of `pota_log` and `pota_ask` as rows of crates/log_rows. They stand in the rows of that crate, crates/call_rows and
# crates/reader_rows, whose programs run them: .ci/page_rows puts them there, and compares.
#
# Taken from a page are:
#
# - in a fenced block, a line `$ pota WORD .. < FILE`, `$ head -n N FILE | pota WORD ..` or `$ cat FILE .. | pota WORD ..` with the
#   lines behind it: what the program prints, whole. Behind `$ cat FILE` must stand the file. FILE may be a pattern.
# - of `pota_view`, a line `$ cat LOG REPORT | pota_view WORD` with the lines behind it, and of `pota_verify` likewise
#   `$ cat LOG CERTIFICATE | pota_verify FORMULA`
# - of `pota_log`, a line `$ pota_log WORD .. < FILE` or `$ cat FILE .. | pota_log WORD ..` with the lines behind it. Those that
#   begin with `pota_log: ` come on standard error
# - of `pota_ask` likewise, and its lines that begin with `pota_ask: ` come on standard error. Behind a line `$ mapfile -t questions <
#   FILE` the word `"${questions[@]}"` is the lines of that file
# - where `> FILE` ends the line of any of these, the file is what the program prints
# - a row of a table whose second cell is `formula byte ..`: the formula in the first cell gives this fault
# - a row whose second cell is `log line N: ..`: the log gives this fault where line N, or the last where there is no such
#   line, is the first cell; `log source S line N: ..` speaks of line N of file S. `\` and two hexadecimal digits stand for one
#   byte. Where the fourth cell begins with a line, the log has no fault with that line in its place
# - a row whose third cell is "true on" or "false on" and a file below examples/: the verdict of the formula in the second
#   cell, which is canonical
#
# The rows of faults are tried on the log that the comment "tried on FILE" or "tried with OPTION on FILE .." above them names.
cd "$(dirname "$0")/.." || exit 1
LC_ALL=C
shopt -s nullglob
awk -v program="${1:-pota}" '
function complain(why) {
    printf "%s, line %d: %s\n", FILENAME, FNR, why > "/dev/stderr"
    failed = 1
}

# The text between the first two backquotes of a cell.
function code_of(cell,    from, rest) {
    from = index(cell, "`")
    if (!from)
        return ""
    rest = substr(cell, from + 1)
    return substr(rest, 1, index(rest, "`") - 1)
}

# Fills lines[1..] with the log, or with the logs one behind the other, begins[S] with what is before log S, and gives their
# number. Then `open_end` says whether the last line lacks its end, as where a process was killed while it wrote.
function read_log(paths,    count, path, files, list, got) {
    count = files = open_end = 0
    list = "printf \"%s\\n\" " paths
    while ((list | getline path) > 0) {
        if (open_end)
            complain("a log follows on half a line, before " path)
        begins[++files] = count
        while ((got = (getline lines[count + 1] < path)) > 0)
            count++
        if (got < 0)
            complain("there is no log " path)
        close(path)
        open_end = has_open_end(path)
    }
    close(list)
    return count
}

# Whether the last line of the file lacks its end.
function has_open_end(path,    last, byte) {
    if (!(path in open_ends)) {
        last = "tail -c 1 " path
        byte = ""
        last | getline byte
        close(last)
        open_ends[path] = byte != ""
    }
    return open_ends[path]
}

function begin_case() {
    printf "case %s %d\n", FILENAME, ++numbers[FILENAME]
}

# Prints the first lines of a log, one of them another where its number is not 0.
function put_log(path, most, changed, text,    key, count) {
    key = path " " most " " changed " " text
    count = read_log(path)
    if (key == put_before)
        print "log-as-before"
    else
        put_lines("log", most && most < count ? most : count, changed, text)
    put_before = key
    if (open_end && !most)
        print "cut 1"
}

# Prints lines[1..], the changed one or the last as this text where there is one.
function put_lines(keyword, count, changed, text,    i) {
    if (changed > count)
        changed = count
    for (i = 1; i <= count; i++)
        print keyword " " (i == changed ? text : lines[i])
}

# The batches of a log that are closed before this line.
function closed_before(path, line,    count, i, closed) {
    count = read_log(path)
    closed = 0
    for (i = 1; i < line && i <= count; i++)
        closed += lines[i] == "batch" || lines[i] == "end"
    return closed
}

# The line of a fault in the log, or in the logs one behind the other.
function line_of(fault, path,    source) {
    if (fault ~ /^(pota: )?log source /) {
        read_log(path)
        sub(/^.*log source /, "", fault)
        source = fault + 0
        sub(/^[0-9]+ line /, "", fault)
        return begins[source] + fault
    }
    sub(/^.*log line /, "", fault)
    return fault + 0
}

# The batches that are taken before a fault at this line: none of a log that is read whole first.
function taken_before(fault, path, option) {
    return option == "" ? closed_before(path, line_of(fault, path)) : 0
}

# Fills words[1..], and gives their number. A word may stand in single quotes.
function split_words(text,    count, at) {
    count = 0
    while (text != "") {
        if (substr(text, 1, 1) == "\047") {
            text = substr(text, 2)
            at = index(text, "\047")
            words[++count] = substr(text, 1, at - 1)
            text = substr(text, at + 1)
            sub(/^ /, "", text)
        } else {
            at = index(text " ", " ")
            words[++count] = substr(text, 1, at - 1)
            text = substr(text, at + 1)
        }
    }
    return count
}

# Begins what a command of a block prints.
function begin_command(text,    at) {
    end_command()
    log_file = log_lines = shown_file = option = out_file = ""
    if (match(text, / > [^ \047]+$/)) {
        out_file = substr(text, RSTART + 3)
        text = substr(text, 1, RSTART - 1)
    }
    if (match(text, /^cat [^ ]+ [^ ]+ \| pota_(view|verify) /)) {
        begin_sister(substr(text, 1, RLENGTH - 1), substr(text, RLENGTH + 1))
        return
    }
    if (text ~ /^mapfile -t questions < [^ ]+$/) {
        questions_file = substr(text, 24)
        return
    }
    if (match(text, /^(cat .* \| )?pota_(log|ask)( |$)/)) {
        begin_logged(text)
        return
    }
    if (program != "pota")
        return
    if (match(text, /^cat .* \| pota /)) {
        log_file = substr(text, 5, RLENGTH - 12)
        text = substr(text, RLENGTH - 4)
    } else if (text ~ /^cat /) {
        shown_file = substr(text, 5)
        shown = read_log(shown_file)
        seen = 0
        return
    }
    if (text ~ /^head -n [0-9]+ [^ ]+ \| pota /) {
        split(text, half, " ")
        log_lines = half[3]
        log_file = half[4]
        sub(/^[^|]*\| /, "", text)
    }
    if (text !~ /^pota /)
        return
    if (match(text, / < [^ ]+$/)) {
        log_file = substr(text, RSTART + 3)
        text = substr(text, 1, RSTART - 1)
    }
    begin_case()
    word_count = split_words(substr(text, 6))
    for (at = 1; at <= word_count; at++) {
        print "word " words[at]
        if (words[at] ~ /^--(vclog|merged)$/)
            option = words[at]
    }
    if (log_file != "")
        put_log(log_file, log_lines, 0, "")
    else
        put_before = ""
    run_command()
}

# What another program than `pota` reads: a log, what stands behind it, and words.
function begin_sister(text, words_text,    part, at) {
    split(text, part, " ")
    if (program != part[5])
        return
    begin_case()
    word_count = split_words(words_text)
    for (at = 1; at <= word_count; at++)
        print "word " words[at]
    put_before = ""
    put_log(part[2], 0, 0, "")
    put_log(part[3], 0, 0, "")
    run_command()
}

# A row of what `pota_log` or `pota_ask` makes of its words and of a log, or of logs one behind the other.
function begin_logged(text,    at, count, bytes) {
    if (match(text, /^cat .* \| /)) {
        log_file = substr(text, 5, RLENGTH - 7)
        text = substr(text, RLENGTH + 1)
    }
    if (substr(text, 1, 8) != program)
        return
    if (log_file == "" && match(text, / < [^ ]+$/)) {
        log_file = substr(text, RSTART + 3)
        text = substr(text, 1, RSTART - 1)
    }
    printf "row pages: %s %d\n", FILENAME, ++numbers[FILENAME]
    if (program == "pota_ask")
        print "program pota_ask"
    word_count = split_words(substr(text, 10))
    for (at = 1; at <= word_count; at++)
        put_word(words[at])
    count = log_file == "" ? 0 : read_log(log_file)
    put_lines("in", count, 0, "")
    if (count && open_end) {
        for (at = 1; at <= count; at++)
            bytes += length(lines[at]) + 1
        print "cut " bytes - 1 " " bytes
    }
    run_command()
}

# A word of a command, or the lines of the file of questions.
function put_word(text,    count, i) {
    if (text != "\"${questions[@]}\"") {
        print "word " text
        return
    }
    count = read_log(questions_file)
    for (i = 1; i <= count; i++)
        print "word " lines[i]
}

# What the command prints stands behind it, or in a file.
function run_command(    count, i) {
    running = 1
    report = diag = verdict = ""
    batches = all_batches = 0
    if (log_file != "")
        all_batches = closed_before(log_file, read_log(log_file)) + 1
    if (out_file == "")
        return
    count = read_log(out_file)
    for (i = 1; i <= count; i++)
        add_output(lines[i])
}

# One line more that a command prints.
function add_output(line) {
    if (shown_file != "") {
        if (line != lines[++seen])
            complain("this is not line " seen " of " shown_file)
    } else if (running && line ~ /^pota: /)
        diag = line
    else if (running && line ~ /^pota_(log|ask): /)
        diag = diag "diag " line "\n"
    else if (running) {
        report = report (of_rows ? "out " : "report ") line "\n"
        if (line ~ /^verdict /)
            verdict = substr(line, 9)
        if (line ~ /^batch /)
            batches = substr(line, 7) + 0
        if (line ~ /^pota-bench /)
            batches = 1
        if (line ~ /^pota-cert /)
            batches = all_batches
    }
}

function end_command() {
    if (shown_file != "" && seen != shown)
        complain("this is not all of " shown_file)
    shown_file = ""
    if (!running)
        return
    running = 0
    if (of_rows) {
        printf "%s%s", report, diag
        print "status " status_of_row()
        print "end"
        return
    }
    if (program != "pota") {
        print "status " (report ~ /^report refused line / ? 1 : 0)
        print "room 1048576"
        printf "%s", report
        print "end\n"
        return
    }
    if (diag ~ /^pota: usage/)
        print "status 2"
    else if (diag ~ /^pota: formula byte /)
        print "status 3"
    else if (diag ~ /^pota: log (line|source) /) {
        print "status 4"
        batches = taken_before(diag, log_file, option)
    } else if (verdict == "true")
        print "status 0"
    else if (verdict == "false")
        print "status 1"
    else
        complain("this command has no answer")
    if (length(report) > 4000)
        print "room 65536"
    print "batches " batches
    printf "%s", report
    if (diag != "")
        print "diag " diag
    print "end\n"
}

# The status of a row of `pota_log` or `pota_ask`, by what is told and written.
function status_of_row() {
    if (diag ~ /^diag pota_(log|ask): (usage|--keep)/)
        return 2
    if (diag ~ /^diag pota_ask: question /)
        return 3
    if (diag ~ /^diag pota_(log|ask): log /)
        return 4
    return program == "pota_ask" && report ~ /\nout not ok / ? 1 : 0
}

function put_formula_fault(formula, fault) {
    begin_case()
    print "word check"
    print "word " formula
    put_log(tried_on, 0, 0, "")
    print "status 3"
    print "diag pota: " fault
    print "end\n"
}

function put_log_fault(text, fault) {
    begin_case()
    print "word check"
    print "word true"
    if (tried_with != "")
        print "word " tried_with
    put_log(tried_on, 0, line_of(fault, tried_on), text)
    print "status 4"
    print "batches " taken_before(fault, tried_on, tried_with)
    print "diag pota: " fault
    print "end\n"
}

# Fills names[1..] with the processes of the log and events[name] with how many events each has, and gives their number. A file
# that ends in `.vclog` has records of two lines, and its hosts are names.
function read_processes(path, count,    i, j, of, part, name) {
    split("", events)
    if (path ~ /\.vclog$/) {
        of = 0
        for (i = 1; i <= count; i += 2) {
            split(lines[i], part, " ")
            gsub(/[^A-Za-z0-9_]/, "_", part[1])
            if (!(part[1] in events)) {
                for (j = ++of; j > 1 && names[j - 1] > part[1]; j--)
                    names[j] = names[j - 1]
                names[j] = part[1]
            }
            events[part[1]]++
        }
        return of
    }
    of = split(substr(lines[2], 7), names, " ")
    for (i = 1; i <= count; i++) {
        split(lines[i], part, " ")
        if (part[1] == "ev")
            events[part[2]]++
    }
    return of
}

# The log is taken with the mended line.
function put_mended(text, fault,    count, at) {
    begin_case()
    print "word check"
    print "word true"
    if (tried_with != "")
        print "word " tried_with
    at = line_of(fault, tried_on)
    put_log(tried_on, 0, at, text)
    count = read_log(tried_on)
    count = lay_in(text, at > count ? count : at, count)
    put_report("true", "true", tried_on, count, tried_with == "" ? closed_of(count) : 1)
}

# Lays a text, of one line or several, into lines[1..] in place of one, and gives the number of all.
function lay_in(text, at, count,    parts, more, i) {
    more = split(text, parts, /\\0a/) - 1
    for (i = count; i > at; i--)
        lines[i + more] = lines[i]
    for (i = 0; i <= more; i++)
        lines[at + i] = parts[i + 1]
    return count + more
}

# The batches that lines[1..] close.
function closed_of(count,    i, closed) {
    for (i = 1; i <= count; i++)
        closed += lines[i] == "batch" || lines[i] == "end"
    return closed
}

function put_verdict(formula, verdict, path,    count) {
    begin_case()
    print "word check"
    print "word " formula
    if (path ~ /\.vclog$/)
        print "word --vclog"
    put_log(path, 0, 0, "")
    count = read_log(path)
    put_report(formula, verdict, path, count, path ~ /\.vclog$/ ? 1 : closed_of(count))
}

# What is printed of the log in lines[1..].
function put_report(formula, verdict, path, count, closed,    of, i, procs, lengths) {
    print "status " (verdict == "true" ? 0 : 1)
    print "batches " closed
    of = read_processes(path, count)
    for (i = 1; i <= of; i++) {
        procs = procs " " names[i]
        lengths = lengths (i > 1 ? "," : "") events[names[i]] + 0
    }
    print "report pota-report 1\nreport batch " closed "\nreport procs" procs
    print "report lengths " lengths
    print "report formula " formula "\nreport verdict " verdict "\nreport end\nend\n"
}

function take_row(row,    cells, second, third) {
    gsub(/\\\|/, "\001", row)
    split(row, cells, "|")
    gsub("\001", "|", cells[2])
    gsub("\001", "|", cells[3])
    second = code_of(cells[3])
    third = cells[4]
    if (second ~ /^formula byte /)
        put_formula_fault(code_of(cells[2]), second)
    else if (second ~ /^log (line|source) /) {
        put_log_fault(code_of(cells[2]), second)
        if (cells[5] ~ /^ `/)
            put_mended(code_of(cells[5]), second)
    }
    else if (third ~ /^ (true|false) on `/)
        put_verdict(second, third ~ /^ true/ ? "true" : "false", "examples/" code_of(third))
}

BEGIN {
    of_rows = program ~ /^pota_(log|ask)$/
    if (!of_rows)
        print "# What the pages show, printed by docs/cases.sh from them.\n"
}
FNR == 1 {
    end_command()
    fenced = 0
}
/^```/ {
    end_command()
    fenced = !fenced
    next
}
fenced && /^\$ / {
    begin_command(substr($0, 3))
    next
}
fenced {
    add_output($0)
    next
}
program != "pota" {
    next
}
/^<!-- tried (with --[a-z]+ )?on .* -->$/ {
    tried_with = $3 == "with" ? $4 : ""
    tried_on = $0
    sub(/^.* on /, "", tried_on)
    sub(/ -->$/, "", tried_on)
}
/^\|/ {
    take_row($0)
}
END {
    end_command()
    exit failed
}
' README.md docs/*.md examples/*/README.md
