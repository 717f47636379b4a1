# The scripts of 60,000 events that benchmarks share: one server and 64 places, of which 63 stay taken nearly all the time, and
# 16 servers and 4,096 places, nearly all taken, with requests in the servers' queues and in the backend's.

# Arrivals with offsets by a fixed sequence of numbers, and the return of the slot that is taken. The ticket that has
# the slot is known by keeping the waiting due dates here.
write_one_server() {
    awk 'BEGIN {
        seed = 1; tickets = 0; waiting = 0; serving = 0; moment = 0
        for (event = 0; event < 60000; event++) {
            moment += 1
            if (serving == 0 || waiting < 62) {
                seed = (seed * 1103 + 12345) % 65536
                offset = seed % 2001 - 1000
                tickets += 1
                print moment " arrive 0 " offset
                if (serving == 0) serving = tickets
                else { waiting += 1; due[tickets] = moment + offset }
            } else {
                print moment " done " serving
                serving = 0; best = 0
                for (ticket in due)
                    if (best == 0 || due[ticket] < due[best] || (due[ticket] == due[best] && ticket + 0 < best + 0)) best = ticket
                if (best != 0) { serving = best + 0; delete due[best]; waiting -= 1 }
            }
        }
    }'
}

# The same for 16 servers of one slot and ten waiting requests each: once these are full, a request that arrives joins
# the one server's queue that a grant left shorter, or else the backend's. Each return is of a server by a fixed
# sequence of numbers, and an arrival follows it. The backend's queue is a heap by due date and ticket.
write_many_servers() {
    awk '
    function before(a, b) { return due[a] < due[b] || (due[a] == due[b] && a < b) }
    function push(ticket,   at, up) {
        at = ++size
        while (at > 1) {
            up = int(at / 2)
            if (!before(ticket, heap[up])) break
            heap[at] = heap[up]; at = up
        }
        heap[at] = ticket
    }
    function pop(   last, at, down) {
        last = heap[size--]; at = 1
        while (2 * at <= size) {
            down = 2 * at
            if (down < size && before(heap[down + 1], heap[down])) down++
            if (!before(heap[down], last)) break
            heap[at] = heap[down]; at = down
        }
        heap[at] = last
    }
    function next_number() { seed = (seed * 1103 + 12345) % 65536; return seed }
    function arrive(   offset) {
        offset = next_number() % 2001 - 1000
        tickets += 1; due[tickets] = moment + offset
        print moment " arrive 0 " offset
        if (tickets <= 16) serving[tickets - 1] = tickets
        else if (tickets <= 176) own[(tickets - 1) % 16, int((tickets - 1) / 16)] = tickets
        else if (shorter >= 0) { own[shorter, hole] = tickets; shorter = -1 }
        else push(tickets)
    }
    function finish(server,   at, best) {
        print moment " done " serving[server]
        best = 1
        for (at = 2; at <= 10; at++) if (before(own[server, at], own[server, best])) best = at
        if (before(own[server, best], heap[1])) { serving[server] = own[server, best]; shorter = server; hole = best }
        else { serving[server] = heap[1]; pop() }
    }
    BEGIN {
        seed = 1; tickets = 0; size = 0; moment = 0; shorter = -1
        print "places 4096"
        for (server = 1; server <= 16; server++) print "server a" server " 1 10 1"
        for (event = 0; event < 60000; event++) {
            moment += 1
            if (event < 4096 || event % 2 == 1) arrive()
            else finish(int(next_number() / 16) % 16)
        }
    }'
}
