# Tables of calloc and realloc: each line of a table is a run of the program, whose whole output is worked out by a plain
# model of one pool. It is sourced.

# The model. All random words are 0, so the lowest page and the first place are taken, and every freed place waits in slot
# 0. `kind` has the held pages: free, data, guard, or the class of their places. Bytes are those of the last write over them.
readonly resizing_model='
    function base(page) { return 65536 + 4096 * page }
    function page_of(address) { return int((address - 65536) / 4096) }
    function least(a, b) { return a < b ? a : b }
    function hex(number) { return sprintf("0x%x", number) }

    # ---- sizes: the class, or -1 for whole pages

    function class_of(size,    class) {
        if (size == 0) return 0
        for (class = 16; class < size + canary; class *= 2);
        return class <= 2048 ? class : -1
    }
    function stride(class) { return class == 0 ? 16 : class }
    function data_pages(size) { return int((size + 4095) / 4096) }
    function is_large(size) { return class_of(size) < 0 && data_pages(size) + guard > 32 }

    # ---- bytes

    function write(to, len, byte) { writes++; at[writes] = to; count[writes] = len; value[writes] = byte; source[writes] = -1 }
    function copy(from, to, len) { write(to, len, 0); source[writes] = from }
    function byte_at(address, upto,    i) {
        for (i = upto; i > 0; i--)
            if (at[i] <= address && address < at[i] + count[i])
                return source[i] < 0 ? value[i] : byte_at(source[i] + address - at[i], i - 1)
        return 0
    }
    function put_canaries(address, size,    end) {
        end = least(size + 32, class_of(size))
        if (canary && size > 0 && end > size) write(address + size, end - size, 1)
    }
    function broken_canary(address, size,    end, i) {
        end = least(size + 32, class_of(size))
        if (canary && size > 0) for (i = size; i < end; i++) if (byte_at(address + i, writes) != 1) return i
        return -1
    }

    # ---- pages: what a call claims and releases is told at the end of its entry

    function claim_at(page, n,    zone, i) {
        zone = int(page / 32)
        version[zone]++
        moves = moves " claim " zone "@" version[zone] " " (page % 32) "+" n
        for (i = page; i < page + n; i++) kind[i] = "free"
        write(base(page), 4096 * n, 0)
    }
    # The lowest run of so many pages that are all of this kind, in one zone.
    function run_of(n, what, zone,    first, i) {
        for (first = 32 * zone; first <= 32 * zone + 32 - n; first++) {
            for (i = first; i < first + n && (i in kind ? kind[i] : "none") == what; i++);
            if (i == first + n) return first
        }
        return -1
    }
    function pages(n,    zone, page, looks) {
        for (zone = 0; zone < zones; zone++) if ((page = run_of(n, "free", zone)) >= 0) return page
        for (zone = 0; zone < zones; zone++) {
            if ((page = run_of(n, "none", zone)) >= 0) { moves = moves looks; claim_at(page, n); return page }
            looks = looks (looks == "" ? " look" : "") " " zone "@" (version[zone] + 0)
        }
        moves = moves looks
        return -1
    }
    function become_free(page, n,    i, free, zone) {
        for (i = page; i < page + n; i++) kind[i] = "free"
        for (i in kind) if (kind[i] == "free") free++
        if (free <= cache) return
        for (i = page; i < page + n; i++) delete kind[i]
        zone = int(page / 32)
        version[zone]++
        moves = moves " release " zone "@" version[zone] " " (page % 32) "+" n
    }

    # ---- blocks

    function is_taken(address) { return address in live || address == waits }
    function free_place(page, class,    i) {
        for (i = 0; i < int(4096 / stride(class)); i++)
            if (!is_taken(base(page) + stride(class) * i)) return base(page) + stride(class) * i
        return -1
    }
    function is_touched(page, class,    i) {
        for (i = 0; i < int(4096 / stride(class)); i++) if (is_taken(base(page) + stride(class) * i)) return 1
        return 0
    }
    function chunk(class,    page, address) {
        for (page = 0; page < 32 * zones; page++)
            if (page in kind && kind[page] == "c" class && (address = free_place(page, class)) >= 0) return address
        if ((page = pages(1)) < 0) return 0
        kind[page] = "c" class
        return base(page)
    }
    function set_pages(page, size,    i) {
        for (i = page; i < page + data_pages(size); i++) kind[i] = "data"
        if (guard) kind[i] = "guard"
    }
    # The address of a new block, 0 where there is no run for it.
    function placed(size,    class, page, address) {
        class = class_of(size)
        words = words (class < 0 ? " 0" : " 0 0")
        if (class >= 0) address = chunk(class)
        else {
            page = pages(data_pages(size) + guard)
            if (page >= 0) { set_pages(page, size); address = base(page) }
        }
        if (address == 0) return 0
        live[address] = size
        if (level == 2) write(address, class < 0 ? 4096 * data_pages(size) : stride(class), 219)
        return address
    }
    # A block leaves: a chunk waits, and what waited is free; pages become free.
    function leaves(address,    size, class, page, old) {
        size = live[address]
        class = class_of(size)
        page = page_of(address)
        delete live[address]
        if (class < 0) {
            if (level == 1) write(address, 2048, 223)
            if (level == 2) write(address, 4096 * data_pages(size), 223)
            become_free(page, data_pages(size) + guard)
            return
        }
        old = waits
        waits = address
        stored = 0
        if (level > 0) write(address, stride(class), 223)
        if (old == "") return
        page = page_of(old)
        class = substr(kind[page], 2) + 0
        if (!is_touched(page, class)) become_free(page, 1)
    }
    # The first byte of the waiting place that was written since its free, or -1. Only a store can have written it.
    function late(    class, i) {
        if (level == 0 || !stored) return -1
        class = substr(kind[page_of(waits)], 2) + 0
        for (i = 0; i < stride(class); i++) if (byte_at(waits + i, writes) != 223) return i
        return -1
    }
    # What a free or a realloc answers where no live block begins at the address.
    function standing(address,    page) {
        page = page_of(address)
        if (address in live) return ""
        if (!(page in kind)) return "miss"
        if (kind[page] !~ /^c/) return "fault bogus pointer (double free?)"
        if ((address - base(page)) % stride(substr(kind[page], 2) + 0)) return "fault modified chunk-pointer"
        return address == waits ? "fault double free" : "fault chunk is already free"
    }

    # ---- calls: the reply is left in `reply`, the rest of the entry in `words` and `moves`

    function block_or_null(address) { reply = address ? "block " hex(address) : "null norun"; return address }
    function allocate(size,    address) {
        if (is_large(size)) { reply = "null toolarge"; return 0 }
        address = block_or_null(placed(size))
        if (address) put_canaries(address, size)
        return address
    }
    function zeroed(size,    address) {
        if (is_large(size)) { reply = "null toolarge"; return 0 }
        address = block_or_null(placed(size))
        if (address) { write(address, size, 0); put_canaries(address, size) }
        return address
    }
    function release(address,    found, offset) {
        found = standing(address)
        if (found != "") { if (found ~ /double free$/) words = " 0"; reply = found; return }
        if (class_of(live[address]) >= 0) words = " 0"
        offset = broken_canary(address, live[address])
        if (offset >= 0) { reply = "fault canary corrupted " offset; return }
        if (words != "" && (offset = late()) >= 0) { reply = "fault write after free " hex(waits) " " offset; return }
        leaves(address)
        reply = "done"
    }
    # Whether a page block stays: it is as long, shorter, or longer with the pages behind it.
    function stays(address, size,    old, more, page, i, held, free) {
        old = live[address]
        more = data_pages(size) - data_pages(old)
        page = page_of(address) + data_pages(old) + guard
        if (more > 0) {
            if (int((page + more - 1) / 32) != int(page_of(address) / 32)) return 0
            for (i = page; i < page + more; i++) { if (i in kind) held++; if (i in kind && kind[i] == "free") free++ }
            if (held && free < more) return 0
            if (!held) claim_at(page, more)
        }
        live[address] = size
        set_pages(page_of(address), size)
        if (more > 0 && level == 2) write(base(page_of(address) + data_pages(old)), 4096 * more, 219)
        if (more < 0) become_free(page + more, -more)
        return 1
    }
    function resized(address, size,    old, offset, to) {
        reply = standing(address)
        if (reply != "") return 0
        old = live[address]
        offset = class_of(old) < 0 ? -1 : broken_canary(address, old)
        if (offset >= 0) { reply = "fault canary corrupted " offset; return 0 }
        if (is_large(size)) { reply = "null toolarge"; return 0 }
        if (!moving && class_of(old) == class_of(size)) {
            if (class_of(old) >= 0) { live[address] = size; put_canaries(address, size); return block_or_null(address) }
            if (stays(address, size)) return block_or_null(address)
        }
        if (class_of(old) >= 0) {
            words = " 0"
            if ((offset = late()) >= 0) { reply = "fault write after free " hex(waits) " " offset; return 0 }
        }
        to = block_or_null(placed(size))
        if (!to) return 0
        put_canaries(to, size)
        copy(address, to, least(old, size))
        leaves(address)
        return to
    }

    # ---- commands

    function tell(command, op,    outcome) {
        commands++
        script = script ";" command
        entries = entries "0 " commands " 0 " op " = " reply (words == "" ? "" : " w" words) moves "\n"
        outcome = reply == "miss" ? "fault bogus pointer (double free?)" : reply
        outcomes = outcomes commands " " outcome "\n"
        if (outcome ~ /^fault/) ended = "faulted " commands
        words = moves = ""
    }
    function malloc(name, size) {
        has[name] = allocate(size)
        tell("malloc " name " " size, "malloc " size " @0x0")
    }
    function calloc(name, number, size) {
        has[name] = zeroed(number * size)
        tell("calloc " name " " number " " size, "calloc " number " " size " @0x0")
    }
    function free(name,    address) {
        address = has[name]
        release(address)
        tell("free " name, "free " hex(address))
    }
    function realloc(name, from, size,    address) {
        address = has[from]
        has[name] = resized(address, size)
        tell("realloc " name " " from " " size, "realloc " hex(address) " " size " @0x0")
    }
    function store(name, offset, byte) {
        write(has[name] + offset, 1, byte)
        if (waits != "" && page_of(waits) == page_of(has[name])) stored = 1
        reply = "done"
        tell("store " name " " offset " " byte, sprintf("store %s %02x", hex(has[name] + offset), byte))
    }
    # Only a byte of a page that can be touched is loaded.
    function load(name, offset,    page) {
        page = page_of(has[name] + offset)
        if (offset < 0 || !has[name] || !(page in kind) || kind[page] == "guard" || kind[page] == "c0") return
        reply = sprintf("byte %02x", byte_at(has[name] + offset, writes))
        tell("load " name " " offset, "load " hex(has[name] + offset))
    }
    function begin(some,    none) {
        letters = some
        canary = letters ~ /C/
        guard = letters ~ /G/
        moving = letters ~ /R/
        level = letters ~ /j/ ? 0 : letters ~ /J/ ? 2 : 1
        cache = letters ~ /</ ? 0 : 64
        zones = 2
        split("", kind); split("", live); split("", version); split("", has)
        writes = commands = stored = 0
        waits = words = moves = entries = outcomes = ""
        script = "script a"
        ended = "finished"
    }
    function finish(    flags) {
        flags = (canary ? "C" : "-") "-" (guard ? "G" : "-") (moving ? "R" : "-") "---"
        print letters "|" script ";end"
        printf "omalloc 1\nzones 2 pools 1 flags %s junk %d cache %d\nwords list 0\n", flags, level, cache >wanted
        printf "pool 0 canary 01 entries %d\n%sboard entries 0\nscript 0 a\n%s%s\ndone\n", commands, entries, outcomes, ended >wanted
        print "status " (ended ~ /^faulted/ ? 1 : 0) >wanted
    }
    # Every set of C, G and R, at each level of junk.
    function each_letters(all,    n, c, g, r, j) {
        n = 0
        for (c = 0; c < 2; c++) for (g = 0; g < 2; g++) for (r = 0; r < 2; r++) for (j = 0; j < 3; j++)
            all[++n] = (c ? "C" : "") (g ? "G" : "") (r ? "R" : "") substr("jJ", j, 1)
        return n
    }'

# Runs the table that a program of awk writes: letters and script, with `;` for the ends of its lines. Prints where the
# outputs are others than those of the model.
resizes() {
    local letters script runs
    awk -v wanted="$scratch/wanted" "$resizing_model$1" >"$scratch/table"
    while IFS='|' read -r letters script; do
        "$program" run -o "$letters" -z 2 -w 0 <<<"${script//;/$'\n'}" && echo 'status 0' || echo "status $?"
    done <"$scratch/table" >"$scratch/output"
    runs=$(wc -l <"$scratch/table")
    [[ $runs == "$2" ]] || echo "$runs runs, and not $2"
    if ! cmp -s "$scratch/wanted" "$scratch/output"; then diff -U 30 "$scratch/wanted" "$scratch/output" | head -n 60; fi
}

# A block of each size, of which the first byte and the last are written, comes to each size: where nothing lies behind it, a
# live block, or pages that were freed. Bytes are read on both sides of the old end and of the new one, at the new address and
# at the old, stale one; then the block is freed and the stale pointer is resized. Without a block the old one is still whole.
each_resize() {
    resizes '
    function one(some, old, new, setup,    least_size) {
        begin(some)
        if (setup == 2) { malloc("f", 4096); malloc("x", old); malloc("f", 8192) }
        else if (setup == 1) { malloc("x", old); malloc("f", 4096) }
        else malloc("x", old)
        if (!has["x"]) { finish(); return }
        if (setup == 2) free("f")
        if (old > 0) { store("x", 0, 17); store("x", old - 1, 34) }
        realloc("y", "x", new)
        least_size = least(old, new)
        load("y", 0); load("y", least_size - 1); load("y", least_size)
        load("y", new - 1); load("y", new); load("y", new + 31); load("y", 4096 * data_pages(new) - 1)
        load("x", 0); load("x", old - 1); load("x", old); load("x", 2048)
        if (has["y"]) free("y")
        realloc("z", "x", 24)
        load("z", 0); load("z", 23); load("z", 24)
        finish()
    }
    BEGIN {
        olds = split("0 16 100 2048 4096 8192 126976 131072", old, " ")
        news = split("0 15 16 100 120 2048 2049 4096 4097 8192 12288 126976 131072 131073", new, " ")
        n = each_letters(all)
        all[++n] = "<<<<<<<"; all[++n] = "G<<<<<<<"; all[++n] = "R<<<<<<<"
        for (i = 1; i <= n; i++) for (a = 1; a <= olds; a++) for (b = 1; b <= news; b++)
            for (setup = 0; setup < 3; setup++) one(all[i], old[a], new[b], setup)
    }' 9072
}

# A block of each size of a script in a row, each resized from the one before it, so that blocks grow, shrink and come back.
resized_again() {
    resizes '
    BEGIN {
        n = each_letters(all)
        m = split("100 120 200 0 16 2048 2049 8192 12288 4000 8192 81920 77824 40000 131072 4097 100 1", size, " ")
        for (i = 1; i <= n; i++) for (first = 1; first <= m; first++) {
            begin(all[i])
            malloc("x", size[first])
            for (step = 1; step < m && has["x"]; step++) {
                now = size[(first + step - 1) % m + 1]
                if (live[has["x"]] > 0) store("x", live[has["x"]] - 1, step)
                realloc("x", "x", now)
                load("x", 0); load("x", now - 1)
            }
            finish()
        }
    }' 432
}

# A block of zeros on a place or on pages that were written and freed: all its bytes are zeros, and those behind it are what
# junk and canaries leave there.
zeros() {
    resizes '
    BEGIN {
        n = each_letters(all)
        m = split("0 1 16 100 128 2047 2048 2049 4096 5000 8192", size, " ")
        for (i = 1; i <= n; i++) for (k = 1; k <= m; k++) {
            begin(all[i])
            malloc("x", size[k])
            if (size[k] > 0) { store("x", 0, 17); store("x", size[k] - 1, 34) }
            malloc("y", size[k])
            free("x")
            free("y")
            calloc("z", size[k], 1)
            load("z", 0); load("z", size[k] - 1); load("z", size[k]); load("z", size[k] + 40)
            load("z", 4096 * data_pages(size[k]) - 1)
            calloc("z", 3, 5)
            load("z", 14); load("z", 15)
            finish()
        }
    }' 264
}

# Behind a block of each size under C one byte is written, at each place up to the end of its 32 canaries: a realloc to a
# size of its class, to another and to one that is too large tells it, and draws no word. The canary byte itself changes
# nothing.
canaries_of_realloc() {
    resizes '
    BEGIN {
        for (size = 1; size < 128; size += 21) for (offset = size; offset < least(size + 32, class_of_c(size)); offset++)
            for (byte = 1; byte < 3; byte++) for (to = 0; to < 3; to++) {
                begin("C")
                malloc("x", size)
                store("x", offset, byte)
                realloc("y", "x", to == 0 ? size : to == 1 ? 3000 : 200000)
                load("y", 0)
                finish()
            }
    }
    function class_of_c(size) { canary = 1; return class_of(size) }' 798
}

# A freed block of each class has one byte written, or put back, and then a realloc comes: one that moves a small block looks
# at what waits, and any other doesn't.
late_writes_of_realloc() {
    resizes '
    BEGIN {
        n = each_letters(all)
        m = split("100 120 200 3000 200000", to, " ")
        for (i = 1; i <= n; i++) for (size = 16; size <= 1024; size *= 64) for (offset = 0; offset < size; offset += size / 4 + 3)
            for (byte = 222; byte < 224; byte++) for (large = 0; large < 2; large++) for (k = 1; k <= m; k++) {
                begin(all[i])
                malloc("x", size)
                malloc("y", large ? 5000 : 100)
                free("x")
                store("x", offset, byte)
                realloc("z", "y", to[k])
                load("z", 0)
                finish()
            }
    }' 3360
}
