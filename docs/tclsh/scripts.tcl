# The benches' scripts (crates/trials/data) in tclsh, each in an interpreter of its own; times go to
# standard error. A word names the file, scripts or commands (scripts where none does), and the
# word full asks for the sizes of docs/PERFORMANCE.md.
set folder [file join [file dirname [info script]] .. .. crates trials data]
set name [expr {"commands" in $argv ? "commands" : "scripts"}]
set channel [open [file join $folder $name.txt]]
while {[gets $channel line] >= 0} {
    regexp {^(.*?) \| (\d+) \| (\d+) \| (.*)$} $line all name small full script
    set count [expr {"full" in $argv ? $full : $small}]
    interp create fresh
    set start [clock microseconds]
    set text [fresh eval "set count $count; $script"]
    puts stderr "$name: [expr {([clock microseconds] - $start) / 1000.0}] ms"
    puts "$name: $text"
    interp delete fresh
}
# (one of them writes a file)
file delete lines
