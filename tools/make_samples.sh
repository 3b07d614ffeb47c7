#!/bin/sh
# Rebuilds every sample book in the program's data/, and the commands that the gate runs on them with the answers
# of the reference readers refcheck.py, refshow.py and refbehavior.py, which share no code with the program.
set -eu
export PYTHONDONTWRITEBYTECODE=1
tools=$(cd "$(dirname "$0")" && pwd)
samples=$tools/../samples
crate=$tools/../crates/rulebook
data=$crate/data
mkdir -p "$data"
rm -f "$data"/*.book

for rule in "$samples"/*.rule; do
    name=$(basename "$rule" .rule)
    python3 "$tools/mkbook.py" "$rule" -o "$data/$name.book"
done
python3 "$tools/mkbook.py" --from-words "$samples/smallest.words" -o "$data/smallest.book"
python3 "$tools/shared_chain.py" 2000 > "$data/shared.book"
python3 "$tools/damaged_samples.py" "$data/freight.book" "$data"
: > "$data/empty.book"

cd "$data"
: > "$crate/stdin"
: > "$crate/stdout"
ask() {
    echo "$1 $2" >> "$crate/stdin"
    echo "> $1 $2" >> "$crate/stdout"
    python3 "$tools/ref$1.py" "$2" >> "$crate/stdout"
}
for book in *.book; do ask check "$book"; done
for book in freight.book shapes.book smallest.book worked.book freight-cut.book; do ask show "$book"; done
for book in freight.book missing-return.book shapes.book unfit.book worked.book freight-bad-tag.book; do ask behavior "$book"; done
