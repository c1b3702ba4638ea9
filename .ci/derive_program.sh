# Sourced by those that run dynamo_derive: goes to the folder of the crates, makes a folder that goes at the end ($made), and
# proves and builds the program ($program) where it isn't built yet, or a source is newer. The program prints plain lines, which its
# launcher lays out; lay_out does so here.
cd "$(dirname "${BASH_SOURCE[0]}")/../crates"
program=dynamo_derive/out/dynamo_derive
made=$(mktemp -d)
trap 'rm -rf "$made"' EXIT
../build dynamo_derive 2> "$made/log" || { cat "$made/log" >&2; exit 1; }

# Lays out the code in a crate's folder.
lay_out() {
  (cd "$1" && rt fmt > "$made/log" 2>&1) || { cat "$made/log" >&2; exit 1; }
}
