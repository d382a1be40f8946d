# A chart for a terminal: a column for each thread, a line for each event.
#
# place[t]: where the column of thread t begins; wide[t]: how wide it is. A text that is longer goes on over the next columns.

function draw(    r, i, before) {
    make_rows(0)
    margin = length(final "") + 2
    place_columns()
    before = first - 1
    for (r = 1; r <= rows; r++) {
        if (r % 50 == 1) put_heads()
        i = row_event[r]
        if (i) {
            draw_event(i)
            before = i
        } else put_line("", over(lifelines(before), 1, "(" row_text[r] ")"))
    }
    if (final == events) draw_end()
}

function put_line(head, text) {
    text = spaces(margin - 2 - length(head)) head "  " text
    sub(/ +$/, "", text)
    print text
}

function spaces(n) { return n > 0 ? sprintf("%" n "s", "") : "" }

# The text with another one over it from a place on, which is counted from 1.
function over(text, from, other) {
    text = text spaces(from + length(other) - 1 - length(text))
    return substr(text, 1, from - 1) other substr(text, from + length(other))
}

# Columns are as wide as most texts in them, up to a width that goes by how many there are, and as what the last row says of
# their threads; between two threads an arrow has room behind its text.
function place_columns(    t, r, i, need, columns, most, p, headed) {
    for (t = 1; t <= threads; t++)
        if (t in shown) {
            wide[t] = length(thread_name[t]) + 2
            p = thread_process[t]
            if (!(p in headed) && length(process_name[p]) + 2 > wide[t]) wide[t] = length(process_name[p]) + 2
            headed[p] = 1
            columns++
        }
    most = columns > 8 ? 14 : columns > 4 ? 20 : 27
    for (r = 1; r <= rows; r++) {
        i = row_event[r]
        if (!i) continue
        need = length(text_of(i)) + 2
        if (need > most) need = most
        if (need > wide[event_thread[i]]) wide[event_thread[i]] = need
    }
    for (t = 1; t <= threads; t++) {
        need = final == events && (t in shown) ? length(wait_text(t)) + 2 : 0
        if (need > wide[t]) wide[t] = need
    }
    set_places()
    for (r = 1; r <= rows; r++) if (row_event[r]) widen_for(row_event[r])
}

function set_places(    t, from) {
    from = 1
    for (t = 1; t <= threads; t++) {
        if (!(t in shown)) continue
        place[t] = from
        from += wide[t]
    }
}

function widen_for(i,    list, n, k, t, need, before) {
    n = split(partners[i], list, " ")
    for (k = 1; k <= n; k++) {
        need = place[event_thread[i]] + length(text_of(i)) + 4 - place[list[k]]
        if (list[k] < event_thread[i] || need <= 0 || length(text_of(i)) > 40) continue
        for (t = 1; t < list[k]; t++) if (t in shown) before = t
        wide[before] += need
        set_places()
    }
}

function put_heads(    t, processes_line, names_line, p) {
    for (t = 1; t <= threads; t++) {
        if (!(t in shown)) continue
        if (thread_process[t] != p) {
            p = thread_process[t]
            processes_line = over(processes_line, place[t], process_name[p])
        }
        names_line = over(names_line, place[t], thread_name[t])
    }
    put_line("", processes_line)
    put_line("", names_line)
}

function lifelines(i,    t, text) {
    text = ""
    for (t = 1; t <= threads; t++) if (t in shown) text = over(text, place[t], substr(state[i], t, 1))
    return text
}

function draw_event(i,    t, text, line, list, n, k) {
    t = event_thread[i]
    text = text_of(i)
    line = over(lifelines(i - 1), place[t], text " ")
    n = split(partners[i], list, " ")
    # the farthest first, so that the heads of others stand in its dashes
    for (k = 1; k <= n && list[k] < t; k++) line = with_arrow(line, i, place[t], length(text), list[k])
    for (k = n; k > 0 && list[k] > t; k--) line = with_arrow(line, i, place[t], length(text), list[k])
    put_line(i "", line)
}

# An arrow between the text at a place and the column of a thread, to the text or from it; in words where there is no room.
function with_arrow(line, i, from, size, t,    inward, dashes, gap, life) {
    inward = arrow[i] == "from"
    gap = place[t] < from ? from - place[t] - 1 : place[t] - from - size - 1
    if (gap < 2) {
        sub(/ +$/, "", line)
        return line (inward ? " <- " : " -> ") thread_name[t]
    }
    dashes = spaces(gap - 1)
    gsub(/ /, "-", dashes)
    life = substr(state[i - 1], t, 1)
    if (arrow[i] == "end") life = "X"
    if (life == " ") life = substr(state[i], t, 1)
    if (place[t] < from) return over(line, place[t], life (inward ? dashes ">" : "<" dashes))
    return over(line, from + size, " " (inward ? "<" dashes : dashes ">") life)
}

function draw_end(    t, line, text, waiting) {
    line = lifelines(events)
    for (t = 1; t <= threads; t++) {
        if (!(t in shown)) continue
        text = wait_text(t)
        if (text == "") continue
        line = over(line, place[t], text)
        waiting = 1
    }
    if (waiting) put_line("", line)
    print end_line
}
