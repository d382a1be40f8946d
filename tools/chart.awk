# The trace is the standard input; the rest is told by the environment.
{ text[++lines] = $0 }

END {
    tool = "chart"
    script_file = ENVIRON["CHART_SCRIPT"]
    trace_file = ENVIRON["CHART_TRACE"]
    read_script()
    read_trace()
    first = ENVIRON["CHART_FROM"] == "" ? 1 : ENVIRON["CHART_FROM"] + 0
    final = ENVIRON["CHART_TO"] == "" ? events : ENVIRON["CHART_TO"] + 0
    if (first < 1) first = 1
    if (final > events) final = events
    if (events && first > final) fail(trace_file ": it has " events " events, and none from " first " to " final)
    tell_all()
    draw()
}
