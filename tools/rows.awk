# Which rows a chart has: events from `first` to `final`, of which what is repeated is drawn once.
#
# row_event[r] is an event, or 0 where row_text[r] stands for several. shown[t]: thread t has something in these rows, or the end
# line names it and is drawn too.

function make_rows(most,    i, period, times) {
    sign_events()
    for (i = 1; final == events && i <= threads; i++) if (wait_text(i) != "") shown[i] = 1
    for (i = first; i <= final; i++) {
        if (most && rows >= most) {
            add_row(0, "events " i " to " final " are not drawn: ask for them with --from and --to")
            return
        }
        add_row(i, "")
        period = period_at(i)
        if (!period) continue
        for (times = 1; times < period; times++) add_row(++i, "")
        times = repeats(i - period + 1, period)
        add_row(0, (period == 1 ? "event " i : "events " i - period + 1 " to " i) " again, " times " times, up to event " i + times * period clock_text(i + times * period, period))
        i += times * period
    }
}

function add_row(i, text,    t, list, n) {
    row_event[++rows] = i
    row_text[rows] = text
    if (!i) return
    shown[event_thread[i]] = 1
    n = split(partners[i], list, " ")
    for (t = 1; t <= n; t++) shown[list[t]] = 1
}

# What an event has in common with one of another turn of a loop: all but its own number and those of calls and notices, which
# are told by how far back they were made.
function sign_events(    i, made, kind, n) {
    for (i = 1; i <= events; i++) {
        kind = substr(number[i], 1, 1)
        n = substr(number[i], 2) + 0
        if (n > made[kind]) made[kind] = n
        sign[i] = event_thread[i] " " event_root[i] " " kind made[kind] - n " " label[i] " " arrow[i] partners[i]
    }
}

# How many events from i on come again at least twice; 0 where none do, or where it saves less than four rows.
function period_at(i,    period) {
    for (period = 1; period <= 64 && i + 3 * period - 1 <= final; period++)
        if (sign[i] == sign[i + period] && repeats(i, period) >= 2 && repeats(i, period) * period >= 4) return period
    return 0
}

function repeats(i, period,    end) {
    end = i
    while (end + period <= final && sign[end] == sign[end + period]) end++
    return int((end - i) / period)
}

# The label of an event, with its number as far as that is known.
function text_of(i,    parts, n, k, text) {
    n = split(label[i], parts, "\001")
    text = parts[1]
    for (k = 2; k <= n; k++) text = text number[i] parts[k]
    return text clock_text(i, 1)
}

# What the clock is after event i, where one of the last so many events moved it.
function clock_text(i, last) {
    for (; last > 0; last--) if (i-- in clock_at) return ", clock " clock_at[i + 1]
    return ""
}

# What the last line of a trace leaves a thread waiting for: one that it names.
function wait_text(t,    part, n, k) {
    n = split(end_line, part, " ")
    for (k = 4; k <= n && part[k] != thread_name[t]; k++);
    if (k > n) return ""
    if (!is_there[t]) return has_begun[t] ? "has ended" : "has not begun"
    if (waits[t] == "call") return "waits in c" in_call[t]
    if (waits[t] == "path") return "waits for " waits_for[t]
    if (waits[t] == "port") return "waits at a port"
    return waits[t] == "pool" ? "waits for calls" : ""
}
