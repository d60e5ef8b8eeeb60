#!/bin/sh
# Misuses of a mark: each is added to a copy of the crate `marks`, and the compiler has to turn it away with the
# error named. A use in the right order is added too, and has to pass.
cd "$(dirname "$0")" || exit 2
copy=$(mktemp -d) || exit 2
trap 'rm -rf "$copy"' EXIT
mkdir "$copy/crates" && cp -r crates/placefault crates/positions crates/marks "$copy/crates" || exit 2
rm -rf "$copy"/crates/*/out
printf 'placefault:\npositions: placefault\nmarks: positions\n' >"$copy/crates.txt"
lib=$copy/crates/marks/src/lib.rt
cp "$lib" "$copy/lib.txt"
status=0

# Checks the crate with the function $1 added: `ended` is the status, and `errors` are the names of the compiler's errors.
check_with() {
    cp "$copy/lib.txt" "$lib"
    printf '\n%s\n' "$1" >>"$lib"
    (cd "$copy/crates/marks" && rt check) >"$copy/output.txt" 2>&1
    ended=$?
    errors=$(sed -n 's/.*error\[\([a-z0-9-]*\)\].*/\1/p' "$copy/output.txt" | sort -u)
}

misuse() {
    check_with "$3"
    if [ "$ended" -ne 0 ] && [ "$errors" = "$2" ]; then
        echo "turned away, as it must be: $1 ($2)"
    else
        echo "NOT TURNED AWAY: $1 (wanted $2, found '$errors' and status $ended)"
        status=1
    fi
}

check_with 'pub fn in_order(mark: Proposal, place: &mut [u8]) -> Result<usize, (Refusal, Confirmed)> { mark.confirm().plot(place) }'
if [ "$ended" -eq 0 ] && [ -z "$errors" ]; then
    echo "accepted, as it must be: confirming a proposal and plotting the mark"
else
    echo "NOT ACCEPTED: confirming a proposal and plotting the mark (found '$errors' and status $ended)"
    status=1
fi
misuse 'plotting a proposal' unknown-method \
    'pub fn plot_early(mark: Proposal, place: &mut [u8]) -> Result<usize, (Refusal, Confirmed)> { mark.plot(place) }'
misuse 'confirming a proposal that was rejected' borrow-e0382 \
    'pub fn confirm_late(mark: Proposal) -> Confirmed { let _pair = mark.reject(); mark.confirm() }'
misuse 'confirming a proposal twice' borrow-e0382 \
    'pub fn confirm_twice(mark: Proposal) -> (Confirmed, Confirmed) { (mark.confirm(), mark.confirm()) }'
misuse 'letting a proposal go' linear-value-let-go \
    'pub fn lose_early(mark: Proposal) { let _gone = mark; }'
misuse 'letting a confirmed mark go' linear-value-let-go \
    'pub fn lose(mark: Confirmed) { let _gone = mark; }'
exit $status
