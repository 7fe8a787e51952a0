#!/bin/sh
# Draws the stored pictures anew, at the top of the repository: sh docs/pictures/draw.sh. tests/programs/test_install.py
# compares what is stored with what these commands draw.
set -e
PATH=$PWD/bin:$PATH
forestlab picture plan examples/petersen.col -o docs/pictures/petersen-plan.svg
forestlab picture film examples/petersen.col -o docs/pictures/petersen-film.svg
forestlab picture rounds examples/triangle.col -o docs/pictures/triangle-rounds.svg
forestlab picture rounds examples/drops.col -o docs/pictures/drops-rounds.svg
forestlab picture plan examples/barred.col -o docs/pictures/barred-plan.svg
forestlab picture rounds examples/barred.col -o docs/pictures/barred-rounds.svg
forestlab picture results examples/petersen.col --program matching -o docs/pictures/petersen-pairs.svg
forestlab picture results examples/petersen.col --program independent-set -o docs/pictures/petersen-set.svg
forestlab picture results examples/drops.col --program recolouring -o docs/pictures/drops-anew.svg
forestlab picture bits examples/petersen.col --vertex 6 -o docs/pictures/petersen-bits.svg
forestlab picture bits examples/long_names.col -o docs/pictures/long_names-bits.svg
forestlab picture run examples/chain6.col --pulses 3..5 --transcript examples/chain6_slow.transcript -o docs/pictures/chain6_slow-spacetime.svg
forestlab picture watch examples/chain6.col examples/chain6_slow.transcript -o docs/pictures/chain6_slow-watch.html
forestlab picture schedules examples/two.col -o docs/pictures/two-schedules.svg
forestlab picture schedules examples/two.col --without safes -o docs/pictures/two-without-safes.svg
forestlab picture schedules examples/two.col --without early -o docs/pictures/two-without-early.svg
forestlab picture schedules examples/two.col --without fifo -o docs/pictures/two-without-fifo.svg
forestlab picture schedules examples/two.col --without acks,fifo -o docs/pictures/two-without-acks-fifo.svg
forestlab picture broken --without digit -o docs/pictures/without-digit.svg
forestlab picture broken --without shift -o docs/pictures/without-shift.svg
forestlab picture broken --without root -o docs/pictures/without-root.svg
forestlab picture broken --without children -o docs/pictures/without-children.svg
forestlab picture broken --without parent -o docs/pictures/without-parent.svg
forestlab picture broken --without pair -o docs/pictures/without-pair.svg
forestlab picture broken --without earlier -o docs/pictures/without-earlier.svg
forestlab picture broken --program matching --without partner -o docs/pictures/without-partner.svg
# Mutual exclusion without Lamport's clock, up to where two nodes are inside.
FOLDER=$(mktemp -d)
sed '/me.time = max/d' examples/algorithms/exclusion.py > "$FOLDER/exclusion.py"
forestlab explore triangle --program "$FOLDER/exclusion.py" --list > "$FOLDER/wrong.events" || true
forestlab simulate triangle --program "$FOLDER/exclusion.py" --events "$FOLDER/wrong.events" > "$FOLDER/wrong.transcript"
forestlab picture run triangle --program "$FOLDER/exclusion.py" --transcript "$FOLDER/wrong.transcript" --title "two are inside" -o docs/pictures/exclusion-without-clock.svg
rm -r "$FOLDER"
