# Part of tools/live --measure: a flood from the left host through a box of its own on one core, for each kind of label, to a bound socket that is read.

show_row() { printf '%-32s %7s %7s %9s %8s %8s %7s %9s %8s %6s %8s\n' "$@"; }
flood() {
    local what=$1 area=$2 octets=$3 together=$4 log=$made/flood core=() limit=(--at-once "$4")
    ! command -v taskset >/dev/null || core=(taskset -c $(($(nproc) - 1)))
    start $middle "$log" "${core[@]}" "$box" $gateway "${ends[@]}" --quiet --times "${limit[@]}"
    [ "${#core[@]}" -eq 0 ] || core=(taskset -c 0)
    ip netns exec $left "${core[@]}" "$host" flood 198.51.100.10:5000 "$area" "$octets" 2 >"$made/sent" 9>&-
    end_with TERM
    sed -n 's/^COUNTERS //; s/[^0-9. ]//g; /[0-9]/p' <(grep 'decided\|at once\|nanoseconds' "$log") | paste -sd' ' |
        { read -r decided _ taken rate taking deciding share sending whole; show_row "$what" "$octets" "$together" "$decided" "$taken" "$rate" "$taking" "$deciding" "$sending" "$whole" "$share"; }
}
kill "$receiver"
wait "$receiver" 2>/dev/null || true
core=()
! command -v taskset >/dev/null || core=(taskset -c 0)
ip netns exec $right "${core[@]}" "$host" count 198.51.100.10:5000 600 >/dev/null 9>&- &
echo
echo "datagrams as fast as the left host sends them, 2 seconds each; nanoseconds of the box's processor time for one, and the decision's share of them"
show_row label payload at-most decided together a-second taking deciding sending whole percent
for together in 1 32 256; do
    for octets in 18 512 1400; do
        flood "tag 1, level 1, no categories" 860a00000005010400010000 $octets $together
        flood "tag 1, level 3, categories 0-7" $grows $octets $together
        [ $octets != 18 ] || flood "tag 2, level 3, 15 categories" 862800000005022200030000000200040006000800640066006800c800ca00cc00f000f200f400f6 $octets $together
        [ $octets != 18 ] || flood "tag 5, level 5, categories 0-50" 860c00000005050600050032 $octets $together
        [ $octets != 18 ] || flood "no label: dropped" - $octets $together
    done
done
