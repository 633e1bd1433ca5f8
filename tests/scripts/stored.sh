# Where the stored script and its answers are. The program `replay` is run on the same two files.
tests=$(cd "$(dirname "${BASH_SOURCE[0]}")/.." && pwd)
stored_input=$tests/../crates/replay/stdin
stored_answers=$tests/../crates/replay/stdout
