# A sequence chart in Mermaid. What several events of one thread do alone stands in one note.

function draw(    r, i, t) {
    make_rows(ENVIRON["CHART_TO"] == "" ? 300 : 0)
    print "sequenceDiagram"
    for (t = 1; t <= threads; t++)
        if (t in shown) print "    participant t" t " as " thread_name[t] "<br/>(" process_name[thread_process[t]] ")"
    for (r = 1; r <= rows; r++) {
        i = row_event[r]
        if (!i) put_wide_note(row_text[r])
        else if (partners[i] == "") put_note(event_thread[i], i " " text_of(i))
        else draw_arrows(i)
    }
    put_note(0, "")
    if (final == events) draw_end()
}

# A line in which a colon comes after such a word loses a semicolon.
function put(who, text) {
    if (text ~ /style|classDef/) gsub(/:/, "#58;", text)
    print "    " who ": " text
}

# Notes of one thread are gathered until another row comes.
function put_note(t, text) {
    if (t != noted && noted) {
        put("Note over t" noted, notes)
        notes = ""
    }
    if (t) notes = notes (notes == "" ? "" : "<br/>") escape(text)
    noted = t
}

# Over all threads.
function put_wide_note(text,    t, least, greatest) {
    put_note(0, "")
    for (t = threads; t > 0; t--) {
        if (!(t in shown)) continue
        least = t
        if (!greatest) greatest = t
    }
    if (least) put("Note over t" least (least < greatest ? ",t" greatest : ""), escape(text))
}

function draw_arrows(i,    list, n, k, t, text) {
    put_note(0, "")
    t = event_thread[i]
    text = escape(i " " text_of(i))
    n = split(partners[i], list, " ")
    for (k = 1; k <= n; k++) {
        if (arrow[i] == "from") put("t" list[k] "->>t" t, text)
        else put("t" t head_of(i) "t" list[k], text)
    }
}

function head_of(i) {
    if (arrow[i] == "back") return "-->>"
    if (arrow[i] == "end") return "-x"
    return event_what[i] == "call" ? "->>" : "-)"
}

function draw_end(    t) {
    for (t = 1; t <= threads; t++) if ((t in shown) && wait_text(t) != "") put_note(t, wait_text(t))
    put_wide_note(end_line)
}

# Bytes that mean something in Mermaid, as what it reads them from.
function escape(text) {
    gsub(/#/, "\002", text)
    gsub(/;/, "#59\003", text)
    gsub(/\002/, "#35\003", text)
    gsub(/&/, "#38\003", text)
    gsub(/</, "#60\003", text)
    gsub(/>/, "#62\003", text)
    gsub(/%/, "#37\003", text)
    gsub(/\$/, "#36\003", text)
    gsub(/\\/, "#92\003", text)
    gsub(/`/, "#96\003", text)
    gsub(/\003/, ";", text)
    return text
}
