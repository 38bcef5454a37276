# Part of tools/live: what an operator or an attacker would try on the box itself.

said() { grep -q -- "$1" "$made/box"; } # a line of the box
arrives() { # what the right host gets of one datagram from the left one: options area, octets
    local before
    before=$(lines "$made/right")
    at $left "$host" send 198.51.100.10:5000 "$1" "${2:-8}" 2>/dev/null || true
    [ "$3" = nothing ] || waits "$made/right" "$before" || true
    [ "$3" != nothing ] || sleep 0.1
    [ "$(tail -n +$((before + 1)) "$made/right" | cut -d' ' -f2)" = "${3/nothing/}" ]
}
far=860c000000090206000403e8

echo
echo "messages about refusals: what the sender's kernel tells its program"
reported() { # what, space, destination, options area, what the program is told
    local told
    told=$(at "$2" "$host" ask "$3:5000" "$4" 8)
    row "$1" "$told" [ "$told" = "$5" ]
}
wired() { # what, the message on the sender's wire: source, options area, type, code, word
    holds eval '[ "$(tail -1 "$made/messages")" = "'"$2"'" ]' || true
    row "$1" "$(tail -1 "$made/messages")" [ "$(tail -1 "$made/messages")" = "$2" ]
}
reported "number 6, label missing" $left 198.51.100.10 - "errno 71 type 12 code 1 word 134"
wired "on the wire: source, label, type, code, word" "192.0.2.1 - 12 1 $((134 << 24))"
reported "number 14, outside the arriving range" $left 198.51.100.10 860a00000005010400060000 "errno 101 type 3 code 9 word 0"
wired "on the wire: the label that the datagram came with" "192.0.2.1 860a00000005010400060000 3 9 0"
reported "number 16, no number in the far domain" $left 198.51.100.10 860a00000005010400020000 "errno 101 type 3 code 9 word 0"
wired "on the wire: the label that the datagram came with" "192.0.2.1 860a00000005010400020000 3 9 0"
reported "number 17, outside the leaving range" $right 192.0.2.10 860c000000090206000407d0 "errno 101 type 3 code 9 word 0"
before=$(lines "$made/messages")
reported "number 8, foreign domain: nothing is sent" $left 198.51.100.10 860a00000009010400040000 none
reported "number 11, alignment not zero: nothing is sent" $left 198.51.100.10 860a00000005010401030000 none
at $left "$host" raw wire "$(frame '' 030100000000000045000000 40 01)"
at $left "$host" raw wire "$(frame '' $udp 40 11 0003)"
link=ffffffffffff${left_link//:/}
at $left "$host" raw wire "$(frame '' $udp)"
link=${left_gate//:/}${left_link//:/}
sleep 0.1
row "number 6 of an ICMP error message, of a later fragment, of a frame to all: messages sent" "$(($(lines "$made/messages") - before))" [ "$(lines "$made/messages")" = "$before" ]

echo
echo "path MTU: a label of 12 octets leaves with 16"
asked=$(at $left "$host" ask 198.51.100.10:5000 $grows 1460)
row "1,500 octets that would become 1,504 at an MTU of 1,500: what the kernel tells its program" "$asked" [ "$asked" = "errno 90 type 3 code 4 word 1496" ]
wired "the message has the near domain's label, as it came" "192.0.2.1 $grows 3 4 1496"
row "4 octets shorter: it passes" "" arrives $grows 1456 860e000000090508000403ef03e80000
ip -n $left route flush cache
start $right "$made/serve" "$host" serve 198.51.100.10:6000
server=$started
moved=$(at $left timeout 20 "$host" transfer 198.51.100.10:6000 $grows 2000000 2>&1) || true
holds grep -q received "$made/serve" || true
row "2,000,000 octets over TCP: $moved" "$(tail -1 "$made/serve")" grep -q "received 2000000: all" "$made/serve"
kill "$server" 2>/dev/null || true

echo
echo "reload: SIGHUP"
changed=$made/gateway.bin
cp $gateway "$changed"
started=$gate; end_with TERM
start $middle "$made/box" "$box" "$changed" "${three[@]}"
printf '\x63' | dd of="$changed" bs=1 seek=2 conv=notrunc 2>/dev/null
kill -HUP "$started"; holds said REFUSED || true
row "a file of another version" "$(grep REFUSED "$made/box" | sed "s|$made/||; s/: tools.*;/ ..;/")" said 'REFUSED gateway file .* is refused.*the old ones stay'
row "the box goes on with the old one" "" arrives $good 8 $far
cp $gateway "$changed"
printf '\x05' | dd of="$changed" bs=1 seek=99 conv=notrunc 2>/dev/null # level 3 goes to 5 instead of 4
kill -HUP "$started"; holds said RELOADED || true
row "a good file, in which level 3 goes to 5" "$(grep RELOADED "$made/box" | sed "s|$made/||")" arrives $good 8 860c000000090206000503e8
rm "$changed"
kill -HUP "$started"; holds said 'No such file' || true
row "no file at all" "$(grep 'No such' "$made/box" | sed "s|$made/||")" said 'REFUSED .*No such file.*the old ones stay'
end_with TERM

echo
echo "a gateway file of version 2"
second=$made/gateway-2.bin
tools/gateway-file text-to-file tools/box/gateway-2.txt "$second" 2>"$made/why" || stop "$(tail -n 1 "$made/why")"
start $middle "$made/box" "$box" "$second" "${ends[@]}" --port 2 third 203.0.113.1/25 --all
try "to hosts that know no labels: theirs" 'left third' 860a00000005010400010000 FORWARD - send 8
try "another label to them" 'left third' $good "number 17, outside the leaving range; ICMP type 3, code 9, pointer 0" nothing send 8
try "from them" 'third right' - FORWARD 860a00000009010400020000 send 8
end_with TERM
start $middle "$made/box" "$box" "$second" --port 3 left 192.0.2.1/24 --port 4 right 198.51.100.1/24 --all
try "option 130, unclassified, beside 134" 'left right' 8204ab00$good FORWARD ${far}8204ab00 send 8
try "option 130 missing" 'left right' $good "number 20, option 130 missing; ICMP type 12, code 1, pointer 130" nothing send 8
try "option 130, top secret" 'left right' 82043d00$good "number 21, outside the 130 range; ICMP type 3, code 9, pointer 0" nothing send 8
try "option 130 of a level that is none" 'left right' 8204ac00$good "number 19, bad option 130; ICMP type 12, code 0, pointer 20" nothing send 8
end_with TERM

echo
echo "options: each mistake has its word, and the box does not start"
wrong() { # what is expected, words of the box
    local why status=0
    why=$(at $middle timeout 2 "$box" "${@:2}" 2>&1) || status=$?
    row "${what:-${*:3}}" "$(head -1 <<<"$why")" eval "[ $status = 2 ] && grep -q -- '$1' <<<\"\$why\""
}
what="--evry 3" wrong 'no option of the box' $gateway "${ends[@]}" --evry 3
what="--every soon" wrong 'no number of seconds from 1 to 86400' $gateway "${ends[@]}" --every soon
wrong 'interface left is given twice' $gateway --port 0 left 192.0.2.1/24 --port 1 left 198.51.100.1/24
wrong 'no port number from 0 to 15' $gateway --port left 0 192.0.2.1/24
wrong 'no prefix length from 0 to 32' $gateway --port 0 left 192.0.2.1/64
wrong 'has no port 7' $gateway --port 0 left 192.0.2.1/24 --port 7 right 198.51.100.1/24
wrong 'No such device' $gateway --port 0 left 192.0.2.1/24 --port 1 wrong 198.51.100.1/24
printf 'route 10.0.0.0/8 port 1\nroute 10.0.0.0/8 port 0\nneighbour 192.0.2.9 port 0 link 02:00:00\n' >"$made/routes"
what="--routes with one prefix twice" wrong 'line 2: a second route for 10.0.0.0/8' $gateway "${ends[@]}" --routes "$made/routes"
sed -i 2d "$made/routes"
what="--routes with a bad link address" wrong 'line 2: .*no host.s link address' $gateway "${ends[@]}" --routes "$made/routes"
what="a gateway file that is none" wrong 'is refused' tools/live "${ends[@]}"
what="--metrics in a folder that is not there" wrong 'No such file' $gateway "${ends[@]}" --metrics "$made/none/metrics"

echo
echo "the kernel's own forwarding, with an address of the kernel's on both interfaces"
forwarding() { at $middle cat /proc/sys/net/ipv4/conf/left/forwarding; }
forward() { at $middle sysctl -qw net.ipv4.conf.left.forwarding="$1" net.ipv4.conf.right.forwarding="$1"; }
ip -n $middle addr add 192.0.2.1/24 dev left
ip -n $middle addr add 198.51.100.1/24 dev right
forward 1
row "forwarding on, and no box: an unlabelled datagram arrives" "" arrives - 8 -
what="the box does not start" wrong 'the kernel forwards IPv4 that comes in by left.*--alone' $gateway "${ends[@]}"
start $middle "$made/box" "$box" $gateway "${ends[@]}" --alone
row "--alone: it starts, and switches forwarding off" "$(grep -m 1 ALONE "$made/box" | cut -c 1-64)" [ "$(forwarding)" = 0 ]
row "an unlabelled datagram does not arrive" "$(grep DROP "$made/box" | tail -1 | cut -d: -f2 | cut -c 2-64)" arrives - 8 nothing
row "a label arrives renumbered, and once" "" arrives $good 8 $far
forward 1; holds eval '[ "$(forwarding)" = 0 ]' || true
row "switched on while the box runs: it is off again within a second" "" [ "$(forwarding)" = 0 ]
end_with TERM
forward 0
start $middle "$made/box" "$box" $gateway "${ends[@]}"
row "an address of the kernel's is told of" "$(grep -m 1 WARNING "$made/box" | cut -c 1-64)" said 'WARNING the kernel has an address or a route on left'
forward 1; holds said 'WARNING the kernel forwards' || true
row "without --alone, switched on while the box runs: it is told" "$(grep 'WARNING the kernel f' "$made/box" | head -1 | cut -c 1-64)" said 'WARNING the kernel forwards IPv4'
forward 0
end_with TERM
ip -n $middle addr del 192.0.2.1/24 dev left
ip -n $middle addr del 198.51.100.1/24 dev right
ip -n $middle link add bridge type bridge 2>/dev/null && {
    ip -n $middle link set left master bridge
    what="an interface that belongs to a bridge" wrong 'belongs to a bridge' $gateway "${ends[@]}" --alone
    ip -n $middle link set left nomaster
    ip -n $middle link del bridge
} || skip "an interface that belongs to a bridge" "this kernel has no bridges"

echo
echo "output that nobody reads, and a flood of drops"
mkfifo "$made/pipe"
sleep 100 <"$made/pipe" 9>&- & # holds the other end, and reads nothing
reader=$!
unread() { # signal
    ip netns exec $middle "$box" $gateway "${ends[@]}" --lines 100000 --metrics "$made/metrics" >"$made/pipe" 9>&- &
    started=$!
    holds grep -q . "$made/metrics" || true
    at $left "$host" flood 198.51.100.10:5000 - 18 0.5 >"$made/sent"
    came=$(lines "$made/right")
    for _ in 1 2 3 4 5; do at $left "$host" send 198.51.100.10:5000 $good 8; done
    holds eval '[ $(($(lines "$made/right") - came)) -ge 5 ]' || true
    came=$(($(lines "$made/right") - came))
    sent=$(cut -d' ' -f2 <"$made/sent") sent=${sent%,}
    kill -HUP "$started"
    holds grep -q 'result="taken"} 1' "$made/metrics" && reloaded=yes || reloaded=no
    end_with "$1"
    rm -f "$made/metrics.last"; mv "$made/metrics" "$made/metrics.last"
}
for signal in TERM INT; do
    unread $signal
    row "after $sent drops into a pipe that nobody reads: good datagrams of five that arrive" "$came" [ "$came" = 5 ]
    row "SIGHUP is answered" "$(grep -m 1 taken "$made/metrics.last")" [ $reloaded = yes ]
    row "SIG$signal ends it within a second" "after $milliseconds ms" [ $slow = no ]
done
kill $reader; wait $reader 2>/dev/null || true
count() { awk -v what="$1" 'index($0, "inglebreek_" what) == 1 { n += $NF } END { print n + 0 }' "$made/metrics.last"; }
decided=$(awk '/number="6"/ { print $NF }' "$made/metrics.last") lost=$(awk '/lost before/ { print $NF }' "$made/metrics.last")
row "its counters are exact: $sent sent, number 6 $decided times, lost before they were taken ${lost:-0}" "lines left out: $(count lines_left_out)" [ "$sent" = $((decided + ${lost:-0})) ]
start $middle "$made/box" "$box" $gateway "${ends[@]}" --lines 10
at $left "$host" flood 198.51.100.10:5000 - 18 0.5 >"$made/sent"
holds said LEFTOUT || true
told=$(grep -c DROP "$made/box")
row "--lines 10 and a flood of half a second: lines told" "$told; $(grep -m 1 LEFTOUT "$made/box")" eval "[ $told -le 20 ] && said LEFTOUT"
end_with TERM
start $middle "$made/box" "$box" $gateway "${ends[@]}" --quiet --messages 5
before=$(lines "$made/messages")
at $left "$host" flood 198.51.100.10:5000 - 18 0.5 >"$made/sent"
end_with TERM
sleep 0.2
told=$(($(lines "$made/messages") - before))
row "--messages 5 and a flood of half a second: messages that the sender gets" "$told; $(grep 'over the limit' "$made/box")" eval "[ $told -ge 5 ] && [ $told -le 15 ] && said 'messages over the limit'"
start $middle "$made/box" "$box" $gateway "${ends[@]}" --json --all --metrics "$made/metrics"
arrives - 8 nothing || true
arrives $good 8 $far || true
object='^{"time":[0-9.]*,"event":"forward","in":"left","out":"right","source":"192.0.2.10","destination":"198.51.100.10","number":0,"words":"passed","type":0,"code":0,"pointer":0,"label_in":"'$good'","label_out":"'$far'"}$'
row "--json: one object a line" "$(grep -o '"number":6,"words":"[a-z ]*"' "$made/box")" eval "grep -q '$object' '$made/box' && said '\"number\":6'"
end_with TERM
mv "$made/metrics" "$made/metrics.last"
row "--metrics: counters by number and direction" "$(grep -m 1 'number="6"' "$made/metrics.last" | cut -d'{' -f2)" \
    grep -qx 'inglebreek_decisions_total{in="left",out="right",number="6",words="label missing"} 1' "$made/metrics.last"

echo
echo "an interface that goes away, and a VLAN"
start $middle "$made/box" "$box" $gateway "${ends[@]}"
ip -n $middle link set left down; holds said 'left is down' || true
row "left is set down" "$(grep INTERFACE "$made/box" | tail -1)" said 'INTERFACE left is down'
ip -n $middle link set left up; holds said 'left is up' || true
row "and up again: datagrams pass" "$(grep INTERFACE "$made/box" | tail -1)" arrives $good 8 $far
ip -n $middle link del left; holds said 'went away' || true
row "left is removed" "$(grep INTERFACE "$made/box" | tail -1)" said 'INTERFACE left went away'
put_up_host $left left $left_link $left_gate 192.0.2.10/24 192.0.2.1
holds eval '[ "$(grep -c "left is up" "$made/box")" = 2 ]' || true
row "another of its name comes: datagrams pass" "$(grep INTERFACE "$made/box" | tail -1)" arrives $good 8 $far
end_with TERM
start $middle "$made/box" "$box" $gateway "${ends[@]}" --vlan 0 7
vlan() { at $left "$host" raw wire "$(frame $good $udp)"; }
before=$(lines "$made/right"); vlan; holds said 'not of the interface' || true
row "--vlan 0 7: an untagged frame" "$(grep DROP "$made/box" | tail -1)" [ "$(lines "$made/right")" = "$before" ]
type=810000080800; vlan; sleep 0.05
row "a frame of VLAN 8" "$(grep DROP "$made/box" | tail -1)" [ "$(lines "$made/right")" = "$before" ]
type=810000070800; vlan; waits "$made/right" "$before" || true
row "a frame of VLAN 7 passes" "$(tail -1 "$made/right")" [ "$(tail -1 "$made/right" | cut -d' ' -f2)" = $far ]
type=0800
start_box=$started
start $middle "$made/watch" "$host" watch
at $right "$host" send 192.0.2.10:5000 860c000000090206000403eb 8
holds grep -q "${left_gate//:/}81000007" "$made/watch" || true
row "back to VLAN 7: what leaves, ARP's question first, has its tag" "$(grep -om 1 "^[0-9a-f]*${left_gate//:/}81000007.*" "$made/watch")" grep -q "${left_gate//:/}810000070806" "$made/watch"
end_with TERM
started=$start_box
end_with TERM

echo
echo "what is measured: the far host has a socket for it, and makes no message inside the box's sending call"
unreachable() { at $right awk '/^Icmp:/ { n += 1; if (n == 2) print $16 }' /proc/net/snmp; }
start $middle "$made/box" "$box" $gateway "${ends[@]}" --quiet --times --at-once 32
before=$(unreachable)
at $left "$host" flood 198.51.100.10:5000 $good 18 0.3 >"$made/sent"
end_with TERM
row "a flood of 0.3 s, at most 32 at once: $(grep -o 'at once [0-9]*' "$made/box"); messages by the far host" "$(($(unreachable) - before))" eval "[ $(($(unreachable) - before)) = 0 ] && said 'at once'"
