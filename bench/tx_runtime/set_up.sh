# Makes a repository of its own in a new folder under /tmp, so that no crate of this one is added to the gate,
# with the file $1 of this folder as its program, and goes to that program's crate. Needs $here, this folder.
root=$(cd "$here/../.." && pwd)
work_folder=$(mktemp -d /tmp/bench_tx_runtime.XXXXXX)
cd "$work_folder"
git init -q .
mkdir -p crates/bench_tx_runtime/src
for crate in tx_events tx_memory own_table undo_log choosers tx_serial tx_runtime; do
    mkdir "crates/$crate"
    cp -r "$root/crates/$crate/src" "$root/crates/$crate/specs" "$root/crates/$crate/proofs" "crates/$crate/"
done
cp "$here/$1" crates/bench_tx_runtime/src/main.rt
printf 'Handles allowed: none.\n' > HANDLES
grep -E '^(tx_events|tx_memory|own_table|undo_log|choosers|tx_serial|tx_runtime):' "$root/crates.txt" > crates.txt
printf 'bench_tx_runtime: tx_events tx_memory own_table undo_log choosers tx_serial tx_runtime\n' >> crates.txt
cd crates/bench_tx_runtime
