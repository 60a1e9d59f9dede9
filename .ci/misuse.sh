# Tables of misuse: each line of a table is a run of the program, whose whole output is worked out by a rule. It is
# sourced.

# What the tables share: a command with its entry and its outcome, and the run of all of them with these letters.
readonly table_words='
    function call(command, op, reply, words) {
        commands++
        script = script ";" command
        entries = entries "0 " commands " 0 " op " = " reply words "\n"
        outcomes = outcomes commands " " reply "\n"
        if (reply ~ /^fault/) ended = "faulted " commands
    }
    function draw(word) { word = sprintf("%.0f", word); list = list "," word; return " w " word }
    # Block i of this size, of which so many lie on a page: all words are 0, so places come in their order.
    function malloc(name, size, i, on_page,    claimed, page) {
        page = int(i / on_page)
        at[name] = 65536 + 4096 * page + 4096 / on_page * (i % on_page)
        claimed = i % on_page == 0 ? " claim 0@" (page + 1) " " page "+1" : ""
        list = list ",0,0"
        call("malloc " name " " size, "malloc " size " @0x0", sprintf("block 0x%x", at[name]), " w 0 0" claimed)
    }
    function free(name, reply, words) { call("free " name, sprintf("free 0x%x", at[name]), reply, words) }
    function store(name, offset, byte) {
        call("store " name " " offset " " byte, sprintf("store 0x%x %02x", at[name] + offset, byte), "done", "")
    }
    function begin() { list = "0"; script = "script a"; entries = outcomes = ""; commands = 0; ended = "finished" }
    function finish(letters,    flags, junk) {
        flags = letters ~ /F/ ? "-F--U--" : "-------"
        junk = letters ~ /j/ ? 0 : letters ~ /J/ ? 2 : 1
        print letters "|" list "|" script ";end"
        printf "omalloc 1\nzones 1 pools 1 flags %s junk %d cache 64\nwords list %s\n", flags, junk, list >wanted
        printf "pool 0 canary 01 entries %d\n%sboard entries 0\nscript 0 a\n%s%s\ndone\n", commands, entries, outcomes, ended >wanted
        print "status " (ended ~ /^faulted/ ? 1 : 0) >wanted
    }'

# Runs the table that a program of awk writes: letters, words and script, with `;` for the ends of its lines. Prints where
# the outputs are others than those that it wants.
table() {
    local letters words script runs
    awk -v wanted="$scratch/wanted" "$table_words$1" >"$scratch/table"
    while IFS='|' read -r letters words script; do
        "$program" run -o "$letters" -z 1 -w "$words" <<<"${script//;/$'\n'}" && echo 'status 0' || echo "status $?"
    done <"$scratch/table" >"$scratch/output"
    runs=$(wc -l <"$scratch/table")
    [[ $runs == "$2" ]] || echo "$runs runs, and not $2"
    if ! cmp -s "$scratch/wanted" "$scratch/output"; then diff -U 30 "$scratch/wanted" "$scratch/output" | head -n 60; fi
}

# A block is freed into each slot, then 1 to 17 others are freed into those behind it, and then it is freed again. As long
# as it waits, that is a double free: under F at once, and else where the drawn slot has it. A free that draws another slot
# before changes nothing, nor does a second one: neither slot gets the place. The 16th other free takes its slot, and it is
# free again.
second_frees() {
    table '
    BEGIN {
        for (checked = 0; checked < 2; checked++)
            for (slot = 0; slot < 16; slot++)
                for (others = 1; others <= 17; others++)
                    for (before = 0; before < 2; before++) {
                        begin()
                        malloc("x", 100, 0, 32)
                        for (i = 1; i <= others; i++) malloc("y" i, 100, i, 32)
                        free("x", "done", draw(slot))
                        for (i = 1; i <= others; i++) free("y" i, "done", draw((slot + i) % 16 + 16 * i))
                        if (others >= 16) free("x", "fault chunk is already free", "")
                        else if (checked) free("x", "fault double free", draw((slot + 5 * before) % 16))
                        else {
                            for (i = 0; i < 2 * before; i++) free("x", "done", draw((slot + 5) % 16))
                            free("x", "fault double free", draw(slot + 4294967280))
                        }
                        finish(checked ? "F" : "")
                    }
    }' 1088
}

# A freed block has each of its bytes written, the last one before, and is found by the next free: the first of the two
# is told. Without F that free draws its slot, and with F another.
each_freed_byte() {
    table '
    BEGIN {
        for (size = 16; size <= 2048; size *= 2)
            for (offset = 0; offset < size; offset++)
                for (checked = 0; checked < 2; checked++) {
                    begin()
                    malloc("x", size, 0, 4096 / size)
                    malloc("y", size, 1, 4096 / size)
                    free("x", "done", draw(3))
                    store("x", size - 1, 0)
                    store("x", offset, 222)
                    free("y", sprintf("fault write after free 0x%x %d", at["x"], offset), draw(checked ? 4 : 3))
                    finish(checked ? "F" : "")
                }
    }' 8160
}

# Each byte value is seen in a freed block, but that with which it was filled, be it there since or written back. At level 0
# none is.
each_written_value() {
    table '
    BEGIN {
        split("F,FJ,Fj", letters, ",")
        for (level = 1; level <= 3; level++)
            for (byte = 0; byte < 256; byte++) {
                begin()
                malloc("x", 16, 0, 256)
                malloc("y", 16, 1, 256)
                free("x", "done", draw(0))
                store("x", 7, (byte + 1) % 256)
                store("x", 7, byte)
                free("y", level == 3 || byte == 223 ? "done" : sprintf("fault write after free 0x%x 7", at["x"]), draw(1))
                finish(letters[level])
            }
    }' 768
}

# Of two freed blocks that were written that in the lower slot is told under F, be it the one that was freed first or not,
# and whichever slot is drawn. Without F it is the one in the drawn slot.
lower_slot_first() {
    table '
    BEGIN {
        for (checked = 0; checked < 2; checked++)
            for (a = 0; a < 16; a++)
                for (b = 0; b < a; b++) {
                    begin()
                    for (i = 0; i <= 16; i++) malloc("v" i, 24, i, 128)
                    for (i = 0; i < 16; i++) free("v" i, "done", draw((5 * i + 3) % 16))
                    low = (5 * a + 3) % 16 < (5 * b + 3) % 16 ? a : b
                    high = a + b - low
                    store("v" low, 31, 1)
                    store("v" high, 2, 1)
                    drawn = checked ? (a + b) % 16 : (5 * high + 3) % 16
                    free("v16", sprintf("fault write after free 0x%x %d", at[checked ? "v" low : "v" high], checked ? 31 : 2), draw(drawn))
                    finish(checked ? "F" : "")
                }
    }' 240
}
