#!/usr/bin/env bash
# Faults in the definitions must be turned away by the proofs. Each fault below is planted, one at a time, in a copy of the
# crates, and checked by `rt check`. The faulty definition itself must still be well formed, so that a proof over it is what is
# refused. Without a fault the copy has to be proved, so that nothing else is the reason.
set -u
cd "$(dirname "$0")/.." || exit 2

# The first checks in the copy begin with what checks of these crates kept on the machine; what is missing there is proved in
# the copy, which takes long.
room=$(mktemp -d) || exit 2
trap 'rm -rf "$room"' EXIT
cp crates.txt "$room" && tar c --exclude=out crates | tar x -C "$room" || exit 2

planted=0
accepted=()

# Proves the crate whose proofs are to refuse a fault. After algebra comes kinds, which has the table of examples.
proved() { # CRATE
    case $1 in
    ledger) (cd "$room/crates/ledger" && rt check) ;;
    *) (cd "$room/crates/algebra" && rt check && cd ../kinds && rt check) ;;
    esac >"$room/log" 2>&1
}

# CRATE is the one that the file is in, where none is given.
fault() { # LABEL FILE OLD NEW [CRATE]
    local label=$1 file=$room/crates/$2 old=$3 new=$4 crate=${5:-${2%%/*}} text
    text=$(<"$file")
    if [[ $text != *"$old"* ]]; then
        echo "fault: $label: $2 has no such text: $old"
        exit 2
    fi
    planted=$((planted + 1))
    printf '%s\n' "${text/"$old"/"$new"}" >"$file"
    if proved "$crate"; then
        echo "fault: $label: ACCEPTED"
        accepted+=("$label")
    elif grep '/specs/.*: error' "$room/log" | grep -qv '/specs/\(Notes\|Clips\|Numbers\)\.antt' || ! grep -q '^logic=not-proved' "$room/log"; then
        echo "fault: $label: the definition is not well formed:"
        grep -m 5 'error' "$room/log"
        accepted+=("$label")
    else
        echo "fault: $label: refused"
    fi
    printf '%s\n' "$text" >"$file"
}

for crate in ledger algebra; do
    if ! proved "$crate"; then
        echo "fault: without a fault $crate is not proved:"
        grep -m 20 'error\|: no proof\|: not proved' "$room/log"
        exit 1
    fi
done

# The ledger takes the length and the bag of what is made of other scores from their pages. A ledger that takes them from the
# term instead says less, and could be proved, since both agree: so the text is held to the words that may stand there.
pages=$(sed -n '/^load_page /d; s/.*; long = //p' crates/ledger/specs/Ledgers.antt)
others=$(grep -o '[^ (){};]*' <<<"$pages" | grep -vxE '[pq]\.(long|bag)|=|bag|d|t|K|\[\]|\+|\+\+|-|max|min|map|later|reversed_bag|taken_bag|dropped_bag')
if [ "$(wc -l <<<"$pages")" -ne 8 ] || [ -n "$others" ]; then
    echo "the ledger's pages take lengths and bags from elsewhere:" $others
    exit 1
fi

# The ledger, while what it stands on is as it was proved
fault 'a page of a join without the bag of its second part' ledger/specs/Ledgers.antt 'bag = p.bag ++ q.bag' 'bag = p.bag'
fault 'a refused call that alters a page' ledger/specs/Ledgers.antt 'Entered K call true l m = m ≡ l' 'Entered K call true l m = Accepted K call l m'
fault 'a rewriting that alters the length' ledger/specs/Ledgers.antt \
    'Some (record { score = s; long = p.long; ' 'Some (record { score = s; long = p.long + 1; '
fault 'a clear that blanks nothing' ledger/specs/Ledgers.antt 'Accepted K (call.Clear place) l m = m ≡ slice_set l place None' 'Accepted K (call.Clear place) l m = m ≡ l'
fault 'a draw that alters a page' ledger/specs/Ledgers.antt 'Accepted K (call.Draw place) l m = m ≡ l' 'Accepted K (call.Draw place) l m = m ≡ slice_set l place None'
fault 'a set for a bag in what comparing says by the pages' algebra/specs/Compare.antt '(count same_placed x xs ≡ j)' '(count same_placed x xs ≢ 0)' ledger

# Scores and bags
fault 'a parallel is as long as its left part' algebra/specs/Score.antt \
    'max (score_length K a) (score_length K b)' 'score_length K a'
fault 'the second part of a sequence is not placed later' algebra/specs/Score.antt \
    'onset = k + x.onset' 'onset = x.onset'
fault 'a set for a bag' algebra/specs/Bag.antt \
    'cond (same x y) (suc (count same x ys))' 'cond (same x y) 1'

# The nine rules
fault 'a rest is split into any two' algebra/specs/Rules.antt 'n ≡ i + j' 'n ≡ n'
fault 'a rest of any length stands beside a score' algebra/specs/Rules.antt 'n ≡ score_length K a' 'n ≡ n'
fault 'parts of any lengths are exchanged' algebra/specs/Rules.antt \
    'score_length K a ≡ score_length K c' 'score_length K a ≡ score_length K a'

# Normal forms
fault 'a normalising that copies' algebra/specs/Normal.antt 'normal K s = together (score_length K s) (lines K s)' 'normal K s = s'
fault 'a normalising after a model that copies' algebra/specs/Normal.antt \
    'normal_after K s model = together (score_length K s) (ordered_after same_line (lines K s) (lines K model))' 'normal_after K s model = s'
fault 'an order that ignores the model' algebra/specs/Bag.antt \
    'ordered_after same xs model = partnered same xs [] model ++ unpartnered same model [] xs' 'ordered_after same xs model = xs'
fault 'the rest after a line is left out' algebra/specs/Normal.antt 'after = n - x.onset - K.length_of x.what' 'after = 0'

# Cuts and reversal
fault 'a take that keeps one tick too many' algebra/specs/Cuts.antt '(rest d) (rest t)' '(rest d) (rest (t + 1))'
fault 'a take whose head is one tick too long' algebra/specs/Cuts.antt 'K.head_of t p' 'K.head_of (t + 1) p'
fault 'a drop off by one' algebra/specs/Cuts.antt '(rest (d - t))' '(rest (d - t - 1))'
fault 'a reversal that forgets the padding' algebra/specs/Cuts.antt 'cond (nat_lt m n) (sequence (rest (n - m)) a) a' 'cond (nat_lt m n) a a'
fault 'a reversal that keeps the order of a sequence' algebra/specs/Cuts.antt \
    'sequence (reversed K b) (reversed K a)' 'sequence (reversed K a) (reversed K b)'
fault 'every parallel counts as uneven' algebra/specs/Cuts.antt 'cond (score_length K a == score_length K b) 0 1' '1'

# Rewriting
fault 'a rewriting at node 0 only' algebra/specs/Rewrite.antt \
    'at_node (other_side K rule way split) node s' 'cond (node == 0) (other_side K rule way split s) None'
fault 'a rewriting that numbers the right part first' algebra/specs/Rewrite.antt \
    '(cond (nat_le node (nodes a)) (mapped (λ x. sequence x b) (at_node f (node - 1) a)) (mapped (sequence a) (at_node f (node - 1 - nodes a) b)))' \
    '(cond (nat_le node (nodes b)) (mapped (sequence a) (at_node f (node - 1) b)) (mapped (λ x. sequence x b) (at_node f (node - 1 - nodes b) a)))'
fault 'a rest is split past its end' algebra/specs/Rewrite.antt 'provided (nat_le split n)' 'provided (nat_le 0 n)'
fault 'a rest is split from its end' algebra/specs/Rewrite.antt \
    '(sequence (rest split) (rest (n - split)))' '(sequence (rest (n - split)) (rest split))'
fault 'a unit put on the other side' algebra/specs/Rewrite.antt \
    'other_side K SequenceUnitLeft Back split s = Some (sequence (rest 0) s)' 'other_side K SequenceUnitLeft Back split s = Some (sequence s (rest 0))'

# Comparing
fault 'a compare that always says same' algebra/specs/Compare.antt 'answer_of xs ys (Some x) = differs x (count same_placed x xs) (count same_placed x ys)' 'answer_of xs ys (Some x) = same'
fault 'a compare that reports the greater primitive' algebra/specs/Compare.antt 'is_lt (compare_placed K y x)' 'is_lt (compare_placed K x y)'
fault 'counts exchanged' algebra/specs/Compare.antt \
    'differs x (count same_placed x xs) (count same_placed x ys)' 'differs x (count same_placed x ys) (count same_placed x xs)'

# Kinds
fault 'a note that comes first by its lower pitch' kinds/specs/Note.antt 'smaller_first q.first p.first' 'smaller_first p.first q.first'
fault 'a backward clip cut like a forward one' kinds/specs/Clip.antt 'cond (p.fourth == 0) 0 (p.third - k)' '0'

echo "$planted planted, ${#accepted[@]} accepted"
if [ "${#accepted[@]}" -gt 0 ]; then
    printf 'accepted: %s\n' "${accepted[@]}"
    exit 1
fi
