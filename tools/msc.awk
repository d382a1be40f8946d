# The input of mscgen. What several events of one thread do alone stands in one box, which is grey where the thread ends.

function draw(    r, i) {
    make_rows(ENVIRON["CHART_TO"] == "" ? 300 : 0)
    put_threads()
    for (r = 1; r <= rows; r++) {
        i = row_event[r]
        if (!i) put_line(row_text[r])
        else if (partners[i] == "") put_box(event_thread[i], i " " text_of(i), substr(state[i], event_thread[i], 1) == " ")
        else draw_arrows(i)
    }
    put_box(0, "", 0)
    if (final == events) draw_end()
    print "}"
}

# Wide enough for each label of at most 44 bytes, and for the longest word, which mscgen would part.
function column_width(    r, i, list, n, k, most) {
    most = 28
    for (r = 1; r <= rows; r++) {
        i = row_event[r]
        if (!i) continue
        n = length(i " " text_of(i))
        if (n > most && n <= 44) most = n
        n = split(text_of(i), list, " ")
        for (k = 1; k <= n; k++) if (length(list[k]) > most) most = length(list[k])
    }
    return 8 * most + 16
}

function put_threads(    t, columns, list) {
    for (t = 1; t <= threads; t++) {
        if (!(t in shown)) continue
        columns++
        list = list (columns == 1 ? "  " : ",\n  ") "t" t " [label=\"" thread_name[t] "\\n(" process_name[thread_process[t]] ")\"]"
    }
    # mscgen wants one at least
    if (!columns) list = "  t1 [label=\"no events\"]"
    print "msc {"
    print "  width=\"" (columns < 2 ? 60 : 0) + columns * column_width() "\", wordwraparcs=\"1\";"
    print list ";"
}

# Boxes of one thread are gathered until another row comes; whether it ends there.
function put_box(t, text, ends) {
    if (t != boxed && boxed) {
        print "  t" boxed " box t" boxed " [label=\"" boxes "\"" (grey ? ", textbgcolour=\"#d0d0d0\"" : "") "];"
        boxes = ""
    }
    if (t) boxes = boxes (boxes == "" ? "" : "\\n") escape(text)
    boxed = t
    grey = ends
}

function put_line(text) {
    put_box(0, "", 0)
    print "  --- [label=\"" escape(text) "\"];"
}

function draw_arrows(i,    list, n, k, t) {
    put_box(0, "", 0)
    t = event_thread[i]
    n = split(partners[i], list, " ")
    for (k = 1; k <= n; k++) {
        if (arrow[i] == "from") put_arrow("t" list[k] " => t" t, i)
        else put_arrow("t" t (arrow[i] == "back" ? " >> " : event_what[i] == "call" ? " => " : " -> ") "t" list[k], i)
    }
    for (k = 1; k <= n; k++) if (arrow[i] == "end") put_box(list[k], "killed", 1)
}

function put_arrow(arrow_text, i) { print "  " arrow_text " [label=\"" escape(i " " text_of(i)) "\"];" }

function draw_end(    t) {
    for (t = 1; t <= threads; t++) if ((t in shown) && wait_text(t) != "") put_box(t, wait_text(t), 0)
    put_line(end_line)
}

# A backslash begins an escape of mscgen too, so those of data are told by their number.
function escape(text) {
    gsub(/\\\\/, "\002", text)
    gsub(/\\"/, "\003", text)
    gsub(/"/, "\\\"", text)
    gsub(/\002/, "\\x5c", text)
    gsub(/\003/, "\\x22", text)
    return text
}
